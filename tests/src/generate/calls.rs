//! Calls on a generated file: keys sought, blocks, indices, order codes,
//! rooms just enough and one too small.

use super::dress;
use super::plan::Plan;
use super::random::Random;
use super::values::value_calls;
use super::words::{KEYS, REAL_KEYS};
use crate::answer::Call;
use crate::reader::{describe, find, list, open, read_array, text};

const ROOMY: usize = 1 << 31;

/// The calls for a file made from a plan.
pub fn calls(random: &mut Random, plan: &Plan, file: &[u8]) -> Vec<Call> {
    let mut calls = vec![Call::Open { rows: random.pick(&[256, 256, 256, 257, 1_000]) }, Call::Print];
    if random.percent(3) {
        calls.push(Call::Open { rows: random.pick(&[0, 1, 255]) });
    }
    let count = open(file, 256).map_or(plan.blocks.len(), |rows| rows.len());
    let many = if file.len() > 20_000 { 1 } else { 3 };
    for _ in 0..many {
        let block = block(random, count);
        block_calls(random, plan, file, block, &mut calls);
    }
    let length = list(file, ROOMY).map_or(0, |text| text.len());
    calls.push(Call::List { room: room(random, length) });
    calls.push(part_call(random, file));
    calls.extend(value_calls(random));
    calls
}

fn block(random: &mut Random, count: usize) -> usize {
    match random.below(20) {
        0 => count,
        1 => random.pick(&[usize::MAX, 256, 1 << 40]),
        2..=6 => 0,
        7..=11 => count.saturating_sub(1),
        _ => random.below(count),
    }
}

/// The calls on one block.
fn block_calls(random: &mut Random, plan: &Plan, file: &[u8], block: usize, calls: &mut Vec<Call>) {
    calls.push(Call::Describe { block });
    let order = random.pick(&[1, 1, 1, 1, 2, 2, 2, 2, 0, 3, 255]);
    let length = read_array(file, block, 1, ROOMY).map_or(5, |bytes| bytes.len());
    calls.push(Call::ReadArray { block, order, room: room(random, length) });
    calls.push(Call::StoredArray { block, order });
    calls.push(pixel_call(random, file, block));
    let key = key(random, plan, block);
    calls.push(Call::Find { block, key: key.clone() });
    calls.push(Call::WholeNumber { block, key: key.clone() });
    calls.push(Call::Real { block, key: real_key(random, plan, block, &key) });
    let key = if random.percent(50) { b"Title".to_vec() } else { key };
    let length = text(file, block, &key, ROOMY).map_or(5, |text| text.len());
    calls.push(Call::Text { block, key, room: room(random, length) });
}

/// Just enough, one too small, nothing, one more, or plenty.
pub fn room(random: &mut Random, length: usize) -> usize {
    match random.below(8) {
        0 | 1 => length.saturating_sub(1),
        2 => 0,
        3 => length + 1,
        4 => length + random.from_to(2, 2_000),
        _ => length,
    }
}

/// A pixel inside, at an edge, or just outside.
fn pixel_call(random: &mut Random, file: &[u8], block: usize) -> Call {
    let dims = describe(file, block).map_or([2, 2, 2], |d| d.dims());
    let [i1, i2, i3] = dims.map(|dim| index(random, dim));
    Call::ReadPixel { block, i1, i2, i3 }
}

fn index(random: &mut Random, dim: usize) -> usize {
    match random.below(16) {
        0 => dim,
        1 if random.percent(20) => usize::MAX,
        2..=5 => dim.saturating_sub(1),
        _ => random.below(dim),
    }
}

/// A key of the plan, a known one, or one that no header has.
fn key(random: &mut Random, plan: &Plan, block: usize) -> Vec<u8> {
    let own = plan.blocks.get(block).or(plan.blocks.first());
    let statements = own.map_or(&[][..], |b| &b.statements[..]);
    let name = match random.below(10) {
        0..=5 if !statements.is_empty() => statements[random.below(statements.len())].key.clone(),
        6 => random.pick(&[&b""[..], b" ", b"\xc4", b"no such key", b"dim_", b"Dim_1=", &[b'k'; 64], &[b'k'; 65], b"a\0"]).to_vec(),
        _ => random.pick(&KEYS).as_bytes().to_vec(),
    };
    dress::sought(random, &name)
}

/// Mostly a key whose value is the text of a real, one of the block's own if it has any; else this key.
fn real_key(random: &mut Random, plan: &Plan, block: usize, key: &[u8]) -> Vec<u8> {
    let own = plan.blocks.get(block);
    let stands = |name: &&str| own.is_some_and(|b| b.place(name.as_bytes()).is_some());
    let standing: Vec<&str> = REAL_KEYS.into_iter().filter(stands).collect();
    let name = match random.below(10) {
        0 | 1 => return key.to_vec(),
        2..=7 if !standing.is_empty() => random.pick(&standing),
        _ => random.pick(&REAL_KEYS),
    };
    dress::sought(random, name.as_bytes())
}

/// A span that a value has, or one at the file's end.
fn part_call(random: &mut Random, file: &[u8]) -> Call {
    if let (true, Ok(span)) = (random.percent(40), find(file, 0, b"Title")) {
        return Call::Part { start: span.start, length: span.length };
    }
    let start = random.pick(&[0, 1, file.len(), file.len().saturating_sub(3), file.len() + 1, usize::MAX]);
    let length = random.pick(&[0, 1, 2, 3, 4, file.len(), usize::MAX]);
    Call::Part { start, length }
}
