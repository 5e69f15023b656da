//! Every call on a block that two files share: its own keys, those of the general header and of other blocks, keys that no header has, both
//! sides of each buffer length, pixels at the corners and outside.

use crate::answer::Call;
use crate::reader::memo::cut;
use crate::reader::opening::Block;
use crate::reader::rules::Role;
use crate::reader::{describe, read_array, text};

const ROOMY: usize = 1 << 31;

/// At most so many keys of the block itself, and so many of other headers.
const MOST_OWN: usize = 24;
const MOST_OTHER: usize = 8;

/// The calls, with the block's number in the first file.
pub fn calls_on(one: &[u8], block: usize, other: &[u8], other_block: usize) -> Vec<Call> {
    let mut calls = vec![Call::Describe { block }];
    calls.extend(array_calls(one, block));
    calls.extend(pixel_calls(one, block));
    calls.extend(keys(one, block, other, other_block).iter().flat_map(|key| keyword_calls(one, block, key)));
    calls
}

/// The keys of a header, or some of them from its start to its end.
fn keys_of(block: &Block, most: usize) -> Vec<Vec<u8>> {
    let step = block.statements.len().div_ceil(most).max(1);
    block.statements.iter().step_by(step).map(|statement| statement.key.clone()).collect()
}

/// Blocks whose keys are not to be seen from this one: those beside it, the first one and the last.
fn beside(blocks: &[Block], number: usize) -> Vec<&Block> {
    let mut numbers = vec![number.wrapping_sub(1), number + 1, 0, blocks.len() - 1];
    numbers.retain(|other| *other != number);
    numbers.sort_unstable();
    numbers.dedup();
    numbers.into_iter().filter_map(|other| blocks.get(other)).collect()
}

/// The keys that are sought in the block, each once and folded.
pub fn keys(one: &[u8], block: usize, other: &[u8], other_block: usize) -> Vec<Vec<u8>> {
    let blocks = cut(one).unwrap_or_default();
    let mut keys = blocks.get(block).map_or(vec![], |own| keys_of(own, MOST_OWN));
    let general = blocks.first().filter(|first| block > 0 && first.facts.role == Role::General);
    keys.extend(general.into_iter().flat_map(|general| keys_of(general, MOST_OTHER)));
    for (file, number) in [(one, block), (other, other_block)] {
        let blocks = cut(file).unwrap_or_default();
        keys.extend(beside(&blocks, number).into_iter().flat_map(|block| keys_of(block, MOST_OTHER / 2)));
    }
    keys.extend([&b"no such key"[..], b"edf_none", b"", b"title", b"note", b"wavelength"].map(<[u8]>::to_vec));
    keys.sort();
    keys.dedup();
    keys
}

fn keyword_calls(file: &[u8], block: usize, key: &[u8]) -> Vec<Call> {
    let length = text(file, block, key, ROOMY).map_or(1, |text| text.len());
    let key = || key.to_vec();
    let mut calls = vec![Call::Find { block, key: key() }, Call::WholeNumber { block, key: key() }, Call::Real { block, key: key() }];
    calls.extend([length.saturating_sub(1), length].map(|room| Call::Text { block, key: key(), room }));
    calls
}

/// Both orders, with both sides of the length, and orders that are none.
fn array_calls(file: &[u8], block: usize) -> Vec<Call> {
    let length = read_array(file, block, 1, ROOMY).map_or(1, |bytes| bytes.len());
    let rooms = [length.saturating_sub(1), length, length + 9];
    let read = |order| rooms.map(|room| Call::ReadArray { block, order, room });
    let mut calls: Vec<Call> = [1, 2].into_iter().flat_map(read).collect();
    calls.push(Call::ReadArray { block, order: 0, room: 0 });
    calls.extend([1, 2, 3].map(|order| Call::StoredArray { block, order }));
    calls
}

/// Pixels at the corners, and one past each.
fn pixel_calls(file: &[u8], block: usize) -> Vec<Call> {
    let dims = describe(file, block).map_or([1, 1, 1], |description| description.dims());
    let last = dims.map(|dim| dim.saturating_sub(1));
    let mut places: Vec<[usize; 3]> = (0..8).map(|corner| [0, 1, 2].map(|axis| if corner >> axis & 1 == 1 { last[axis] } else { 0 })).collect();
    places.extend([[dims[0], 0, 0], [last[0], dims[1], 0], [0, 0, dims[2]], [usize::MAX, 0, 0]]);
    places.sort_unstable();
    places.dedup();
    places.into_iter().map(|[i1, i2, i3]| Call::ReadPixel { block, i1, i2, i3 }).collect()
}
