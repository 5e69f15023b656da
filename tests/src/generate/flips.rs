//! Mutations of bytes: flips, deletions, insertions, truncations.

use super::random::Random;

/// Bytes that a rule looks at.
const TELLING: &[u8] = b"\0\x01\x7f\x80\xff{}=;\"\\\r\n \t\x0b\x0c.+-0129aEe_";

pub fn flip(random: &mut Random, file: &mut Vec<u8>) {
    for _ in 0..random.from_to(1, 3) {
        one(random, file);
    }
}

fn one(random: &mut Random, file: &mut Vec<u8>) {
    let place = place(random, file.len());
    let byte = if random.percent(70) { random.pick(TELLING) } else { random.byte() };
    match random.below(6) {
        0 if place < file.len() => file[place] ^= 1 << random.below(8),
        1 if place < file.len() => file[place] = byte,
        2 if place < file.len() => drop(file.remove(place)),
        3 => file.insert(place, byte),
        4 => file.truncate(place),
        _ => replace_space(random, file, byte),
    }
}

/// A place in the file, more often near the start of a block than in its filling.
fn place(random: &mut Random, length: usize) -> usize {
    match random.below(3) {
        0 => random.below(length.min(200) + 1),
        1 => length - random.below(length.min(40) + 1),
        _ => random.below(length + 1),
    }
}

/// A byte in place of a space: the length stays, so that later checks are reached.
fn replace_space(random: &mut Random, file: &mut [u8], byte: u8) {
    let spaces: Vec<usize> = (0..file.len().min(4_000)).filter(|&i| file[i] == b' ').collect();
    if !spaces.is_empty() {
        file[random.pick(&spaces)] = byte;
    }
}
