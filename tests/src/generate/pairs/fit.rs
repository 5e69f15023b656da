//! Blocks of a length that is given: what stands before a block is replaced, and the block stays where it is.

use crate::generate::gaps;
use crate::generate::plan::{BlockPlan, Plan};
use crate::generate::random::Random;
use crate::generate::valid;

/// Headers are at most so long.
const LONGEST_HEADER: usize = 65_536;

/// What all blocks of a file have in common.
#[derive(Clone, Copy)]
pub struct Shape {
    pub kind: u8,
    pub boundary: usize,
}

impl Shape {
    pub fn of(plan: &Plan) -> Shape {
        Shape { kind: plan.kind, boundary: plan.blocks.first().map_or(512, |block| block.boundary) }
    }

    /// The key that says how long the data is.
    fn size_key(self) -> &'static [u8] {
        if self.kind == 1 { b"Size" } else { b"EDF_BinarySize" }
    }

    /// A gap: in kind 1 whitespace, in kind 2 none.
    pub fn gap(self, random: &mut Random) -> Vec<u8> {
        if self.kind == 1 { gaps::white(random) } else { vec![] }
    }

    /// Gives the block so many bytes of data, new ones if it has another number, and says their number in the header.
    pub fn set_data(self, random: &mut Random, block: &mut BlockPlan, length: usize) {
        if block.data.len() != length {
            block.data = random.bytes(length);
        }
        block.set_at_top(self.size_key(), length.to_string().as_bytes());
    }

    /// The block in just `total` bytes: a header of this length if it suffices, else as short as may be or a little longer; the rest is data.
    pub fn fitted(self, random: &mut Random, block: &BlockPlan, header: usize, total: usize) -> Option<Vec<u8>> {
        let mut widest = BlockPlan { data: vec![], ..block.clone() };
        widest.set_at_top(self.size_key(), total.to_string().as_bytes());
        let least = widest.render().len();
        let longer = least + self.boundary * random.pick(&[0, 0, 0, 1, 2]);
        let length = [header, longer, least].into_iter().find(|length| (least..=total.min(LONGEST_HEADER)).contains(length))?;
        let mut block = BlockPlan { exact_length: Some(length), ..block.clone() };
        self.set_data(random, &mut block, total - length);
        Some(block.render()).filter(|bytes| bytes.len() == total)
    }

    /// New blocks, with identities that no other block has.
    pub fn new_blocks(self, random: &mut Random, count: usize) -> Vec<BlockPlan> {
        let mut blocks = valid::of_blocks(random, self.kind, false, self.boundary, count).blocks;
        let first = 7_000_000 + random.below(1_000_000_000);
        for (block, number) in blocks.iter_mut().zip(first..).filter(|_| self.kind == 2) {
            block.set(b"EDF_DataBlockID", format!("{number}.Image.Psd").as_bytes());
        }
        blocks
    }

    /// So many new blocks in just `total` bytes; none where these are too few.
    pub fn run(self, random: &mut Random, count: usize, total: usize) -> Option<Vec<u8>> {
        let blocks = self.new_blocks(random, count);
        let least = |block: &BlockPlan| block.render().len() - block.data.len();
        let mut spare = total.checked_sub(blocks.iter().map(least).sum())?;
        let mut bytes = Vec::new();
        for (number, block) in blocks.iter().enumerate() {
            let more = if number + 1 == count { spare } else { random.below(spare.min(2_000) + 1) };
            spare -= more;
            bytes.extend(self.fitted(random, block, 0, least(block) + more)?);
        }
        Some(bytes).filter(|bytes| bytes.len() == total)
    }
}

#[cfg(test)]
mod tests {
    use super::*;
    use crate::reader::open;

    #[test]
    fn runs_of_blocks_have_the_length_asked_for() {
        let random = &mut Random::new(5);
        let mut made = 0;
        for (kind, count, total) in [(1, 1, 1_900), (1, 3, 3_001), (2, 2, 2_777), (2, 4, 9_000)] {
            let shape = Shape { kind, boundary: 512 };
            for _ in 0..50 {
                if let Some(bytes) = shape.run(random, count, total) {
                    assert_eq!((bytes.len(), open(&bytes, 256).map(|rows| rows.len())), (total, Ok(count)));
                    made += 1;
                }
            }
        }
        assert!(made > 120, "{made}");
        assert_eq!(Shape { kind: 1, boundary: 512 }.run(random, 4, 2_000), None);
    }
}
