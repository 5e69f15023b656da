//! Ways to write a key or a value: white, letter case, quotes, escapes.

use super::random::Random;

const WHITES: [&[u8]; 9] = [b"", b"", b" ", b"\r\n", b"\n", b"\t", b" \x0b", b"\x0c", b"  \t"];

/// A key, mostly as usual, else with white and either case anywhere.
pub fn key(random: &mut Random, name: &str) -> Vec<u8> {
    if random.percent(70) {
        return format!("\r\n{name} ").into_bytes();
    }
    let mut written = random.pick(&WHITES).to_vec();
    for &letter in name.as_bytes() {
        written.push(either_case(random, letter));
        if random.percent(10) {
            written.extend(random.pick(&WHITES));
        }
    }
    written
}

/// A key as sought: the same freedom, seldom used.
pub fn sought(random: &mut Random, name: &[u8]) -> Vec<u8> {
    if random.percent(70) {
        return name.to_vec();
    }
    let mut written = Vec::new();
    for &letter in name {
        written.push(either_case(random, letter));
        if random.percent(5) {
            written.extend(random.pick(&WHITES));
        }
    }
    written
}

fn either_case(random: &mut Random, letter: u8) -> u8 {
    match random.below(4) {
        0 => letter.to_ascii_uppercase(),
        1 => letter.to_ascii_lowercase(),
        _ => letter,
    }
}

/// A value that stands for these bytes: white around it, sometimes quotes.
pub fn value(random: &mut Random, bytes: &[u8]) -> Vec<u8> {
    let quotes: (&[u8], &[u8]) = match random.below(12) {
        0 => (b"\"", b"\""),
        1 => (b"\"", b""),
        2 => (b"", b"\""),
        _ => (b"", b""),
    };
    let (before, after) = (random.pick(&WHITES), random.pick(&WHITES));
    [before, quotes.0, bytes, quotes.1, after].concat()
}

/// Text of characters 1 to 127, mostly letters.
pub fn text(random: &mut Random, length: usize) -> Vec<u8> {
    (0..length).map(|_| character(random)).collect()
}

fn character(random: &mut Random) -> u8 {
    match random.below(10) {
        0 => random.pick(b"\\;{}\"\r\n \tlnrs():="),
        1 => random.from_to(1, 127) as u8,
        _ => random.from_to(97, 122) as u8,
    }
}

/// Bytes that may stand in a value, with escapes of all kinds.
pub fn value_bytes(random: &mut Random, length: usize) -> Vec<u8> {
    let mut bytes = Vec::new();
    while bytes.len() < length {
        match random.below(8) {
            0 => bytes.extend([b'\\', random.pick(b"lnrstvf():\\\"qLN=")]),
            1 => bytes.push(random.pick(b"\\\"\r\n \t=")),
            _ => bytes.push(allowed(character(random))),
        }
    }
    bytes.truncate(length);
    bytes
}

fn allowed(byte: u8) -> u8 {
    if b"{};".contains(&byte) { b'x' } else { byte }
}
