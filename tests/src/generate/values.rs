//! Calls that need no file: escape, unescape, write.

use super::calls::room;
use super::dress;
use super::random::Random;
use super::words::WIDTHS;
use crate::answer::Call;
use crate::reader::{escape, unescape, write, Frame};

const ROOMY: usize = 1 << 31;

/// Some of the three calls.
pub fn value_calls(random: &mut Random) -> Vec<Call> {
    let mut calls = Vec::new();
    if random.percent(40) {
        calls.push(escape_call(random));
    }
    if random.percent(40) {
        calls.push(unescape_call(random));
    }
    if random.percent(40) {
        calls.push(write_call(random));
    }
    calls
}

fn text_length(random: &mut Random) -> usize {
    random.pick(&[0, 1, 2, 3, 10, 10, 10, 40, 40, 300, 1_022, 1_023, 1_023, 1_024, 1_025])
}

/// Text, sometimes with a byte that cannot stand there.
fn some_text(random: &mut Random) -> Vec<u8> {
    let length = text_length(random);
    let mut text = dress::text(random, length);
    spoil(random, &mut text, &[0, 128, 200, 255, 1, 127]);
    text
}

fn spoil(random: &mut Random, bytes: &mut [u8], bad: &[u8]) {
    if random.percent(10) && !bytes.is_empty() {
        bytes[random.below(bytes.len())] = random.pick(bad);
    }
}

fn escape_call(random: &mut Random) -> Call {
    let text = some_text(random);
    let length = escape(&text, ROOMY).map_or(5, |value| value.len());
    Call::Escape { text, room: room(random, length) }
}

fn unescape_call(random: &mut Random) -> Call {
    let length = text_length(random);
    let mut bytes = match random.below(6) {
        0 => b"\\s".repeat(length),
        1 => vec![b'v'; length],
        _ => dress::value_bytes(random, length),
    };
    spoil(random, &mut bytes, b"\0\x80\xff{};\x01\x7f");
    let value = dress::value(random, &bytes);
    let length = unescape(&value, ROOMY).map_or(5, |text| text.len());
    Call::Unescape { value, room: room(random, length) }
}

fn write_call(random: &mut Random) -> Call {
    let mut frame = frame(random);
    let elements: usize = [frame.dim_1, frame.dim_2, frame.dim_3].iter().take(usize::from(frame.n)).product();
    let mut length = elements * WIDTHS[usize::from(frame.data_type) - 1];
    if random.percent(25) {
        spoil_frame(random, &mut frame);
    }
    if random.percent(5) {
        length = random.pick(&[length + 1, length.saturating_sub(1), 0]);
    }
    let mut title = some_text(random);
    let pixels = random.bytes(length);
    if random.percent(20) {
        title = filling_title(random, frame, &pixels).unwrap_or(title);
    }
    let needed = write(frame, &title, &pixels, ROOMY).map_or(1_024, |file| file.len());
    Call::Write { frame, title, pixels, room: room(random, needed) }
}

/// A title that makes the header just fill, or just pass, a multiple of 512.
fn filling_title(random: &mut Random, frame: Frame, pixels: &[u8]) -> Option<Vec<u8>> {
    let file = write(frame, b"", pixels, ROOMY).ok()?;
    let end = file.windows(4).position(|window| window == b"\r\n}\n")?;
    let spaces = file[..end].iter().rev().take_while(|&&byte| byte == b' ').count();
    let length = spaces + random.pick(&[0, 0, 1, 2, 511, 512, 513]);
    Some(vec![b't'; length.saturating_sub(random.below(2))])
}

fn frame(random: &mut Random) -> Frame {
    let n = random.from_to(1, 3);
    Frame {
        sequence: random.pick(&[0, 1, -1, 77, i64::MIN, i64::MAX]),
        instance: random.pick(&[1, 2]),
        memory: random.pick(&[1, 1, 2, 10, i64::MAX]),
        data_type: random.from_to(1, 10) as u8,
        order: random.pick(&[1, 2]),
        n: n as u8,
        dim_1: random.pick(&[1, 2, 3, 5, 64, 130, 512]),
        dim_2: random.pick(&[1, 2, 3]),
        dim_3: random.pick(&[1, 2]),
        configuration: random.from_to(1, [2, 8, 48][n - 1]) as u32,
    }
}

/// One argument at, or past, an end of its range.
fn spoil_frame(random: &mut Random, frame: &mut Frame) {
    let dims = [0, 1, 1_048_576, 1_048_577, usize::MAX];
    match random.below(9) {
        0 => frame.instance = random.pick(&[0, 3, 255]),
        1 => frame.memory = random.pick(&[0, -1, i64::MIN, 2]),
        2 => frame.data_type = random.pick(&[0, 11, 255]),
        3 => frame.order = random.pick(&[0, 3, 255]),
        4 => frame.n = random.pick(&[0, 4, 255]),
        5 => frame.dim_1 = random.pick(&dims),
        6 => frame.dim_2 = random.pick(&dims),
        7 => frame.dim_3 = random.pick(&dims),
        _ => frame.configuration = random.pick(&[0, 1, 2, 3, 8, 9, 48, 49, u32::MAX]),
    }
}
