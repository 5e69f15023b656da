//! Every call on a file, for files that are few.

use crate::answer::Call;
use crate::reader::opening::cut_anew;
use crate::reader::{describe, list, read_array, text};

const ROOMY: usize = 1 << 31;

/// Every call: all blocks and one more, all keys, and both sides of every room and index.
pub fn every_call(file: &[u8]) -> Vec<Call> {
    let mut calls: Vec<Call> = [0, 255, 256, 257, 1_000].map(|rows| Call::Open { rows }).to_vec();
    let blocks = cut_anew(file).unwrap_or_default();
    let mut keys: Vec<Vec<u8>> = blocks.iter().flat_map(|block| &block.statements).map(|s| s.key.clone()).collect();
    keys.push(b"no such key".to_vec());
    keys.sort();
    keys.dedup();
    for block in 0..=blocks.len() {
        calls.push(Call::Describe { block });
        calls.extend(array_calls(file, block));
        calls.extend(pixel_calls(file, block));
        calls.extend(keys.iter().flat_map(|key| keyword_calls(file, block, key)));
    }
    calls.extend(blocks.iter().flat_map(|block| &block.statements).flat_map(|s| part_calls(s.value.start, s.value.length)));
    calls.extend(part_calls(0, file.len()));
    let length = list(file, ROOMY).map_or(1, |text| text.len());
    calls.extend([0, 1, length - 1, length, length + 9].map(|room| Call::List { room }));
    calls
}

fn array_calls(file: &[u8], block: usize) -> Vec<Call> {
    let length = read_array(file, block, 1, ROOMY).map_or(1, |bytes| bytes.len());
    let rooms = [0, length.saturating_sub(1), length, length + 9];
    let call = |order| rooms.map(|room| Call::ReadArray { block, order, room });
    (0..=3).flat_map(call).chain((0..=3).map(|order| Call::StoredArray { block, order })).collect()
}

/// Pixels at the ends and in the middle along each index, and one outside.
fn pixel_calls(file: &[u8], block: usize) -> Vec<Call> {
    let dims = describe(file, block).map_or([1, 1, 1], |description| description.dims());
    let [first, second, third] = dims.map(|dim| [0, dim / 2, dim.saturating_sub(1), dim]);
    let mut calls = Vec::new();
    for i3 in third {
        for i2 in second {
            calls.extend(first.map(|i1| Call::ReadPixel { block, i1, i2, i3 }));
        }
    }
    calls
}

fn keyword_calls(file: &[u8], block: usize, key: &[u8]) -> Vec<Call> {
    let length = text(file, block, key, ROOMY).map_or(1, |text| text.len());
    let key = || key.to_vec();
    let mut calls = vec![Call::Find { block, key: key() }, Call::WholeNumber { block, key: key() }, Call::Real { block, key: key() }];
    calls.extend([0, length.saturating_sub(1), length, length + 9].map(|room| Call::Text { block, key: key(), room }));
    calls
}

fn part_calls(start: usize, length: usize) -> Vec<Call> {
    [length, length + 1, usize::MAX].map(|length| Call::Part { start, length }).to_vec()
}
