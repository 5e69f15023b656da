//! The rest of a file, edited around a block that stays as it is.

use super::edits;
use super::fit::Shape;
use crate::independence::Pair;
use crate::generate::gaps;
use crate::generate::plan::{BlockPlan, Plan};
use crate::generate::random::Random;

/// A file around a block: the general block, if it stands before, the blocks before, in kind 1 the gap between them and the block, the block's
/// own bytes, the blocks after, and the gap after the last.
struct Rest<'a> {
    shape: Shape,
    general: Option<&'a BlockPlan>,
    before: &'a [BlockPlan],
    gap: &'a [u8],
    own: Vec<u8>,
    after: &'a [BlockPlan],
    end: &'a [u8],
    /// A general header says how many blocks there are.
    counted: bool,
}

/// Bytes of some blocks, and how many they are.
type Blocks = (Vec<u8>, usize);

fn rendered(blocks: &[BlockPlan]) -> Blocks {
    (blocks.iter().flat_map(BlockPlan::render).collect(), blocks.len())
}

/// The plan, one of its blocks perhaps with a field at either side of a rule, and the number of that block.
fn with_block(random: &mut Random, plan: &Plan) -> (Plan, usize) {
    let mut plan = plan.clone();
    let number = random.below(plan.blocks.len());
    if random.percent(40) && !(plan.general && number == 0) {
        plan.blocks[number] = edits::field(random, Shape::of(&plan), &plan.blocks[number]);
    }
    (plan, number)
}

fn rest_of(plan: &Plan, number: usize) -> Rest<'_> {
    let general = plan.blocks.first().filter(|_| plan.general && number > 0);
    let first = usize::from(general.is_some());
    let (before, after) = (&plan.blocks[first..number], &plan.blocks[number + 1..]);
    let (block, shape) = (&plan.blocks[number], Shape::of(plan));
    let gap = if shape.kind == 1 { &block.lead[..] } else { &[] };
    Rest { shape, general, before, gap, own: block.render().split_off(gap.len()), after, end: &plan.after, counted: plan.general }
}

/// A block that stays where it is, in a file and in the same file edited before it, after it, or on both sides.
pub fn edited(random: &mut Random, plan: &Plan) -> Pair {
    let (plan, block) = with_block(random, plan);
    let rest = rest_of(&plan, block);
    let (edit_before, edit_after) = match (rest.can_before(), rest.can_after()) {
        (true, true) => random.pick(&[(true, false), (true, true), (false, true)]),
        sides => sides,
    };
    let general = rest.general_block(random, edit_before);
    let before = if edit_before { rest.edited_before(random) } else { rest.same_before() };
    let same_count = before.1 == rest.before.len();
    let after = if edit_after || !same_count { rest.edited_after(random, before.1) } else { rest.same_after() };
    let other_block = usize::from(rest.general.is_some()) + before.1;
    let other = [general, before.0, rest.own, after].concat();
    Pair { one: plan.render(), other, block, other_block }
}

/// A block that is moved, since what stands before it is longer, shorter or gone.
pub fn moved(random: &mut Random, plan: &Plan) -> Pair {
    let (plan, block) = with_block(random, plan);
    let rest = rest_of(&plan, block);
    let before = rest.any_before(random);
    let gap = if random.percent(50) { rest.gap.to_vec() } else { rest.shape.gap(random) };
    let after = if random.percent(50) { rest.same_after() } else { rest.edited_after(random, before.1) };
    let other = [before.0, gap, rest.own, after].concat();
    Pair { one: plan.render(), other, block, other_block: before.1 }
}

/// A block of a file with a general header, moved: a block between them has more or less data.
pub fn moved_behind_general(random: &mut Random, plan: &Plan) -> Pair {
    let block = random.from_to(2, plan.blocks.len() - 1);
    let mut changed = plan.clone();
    let (number, length) = (random.from_to(1, block - 1), random.below(900));
    Shape::of(plan).set_data(random, &mut changed.blocks[number], length);
    let [one, other] = if random.percent(50) { [plan, &changed] } else { [&changed, plan] };
    Pair { one: one.render(), other: other.render(), block, other_block: block }
}

impl Rest<'_> {
    /// Whether there is something before the block that may be edited: a block, a gap, or data of the general block.
    fn can_before(&self) -> bool {
        !self.before.is_empty() || !self.gap.is_empty() || self.general.is_some_and(|general| !general.data.is_empty())
    }

    /// What stands before the block, as it is.
    fn same_before(&self) -> Blocks {
        let (blocks, count) = rendered(self.before);
        ([&blocks, self.gap].concat(), count)
    }

    /// What stands after the block, as it is.
    fn same_after(&self) -> Vec<u8> {
        [&rendered(self.after).0, self.end].concat()
    }

    /// Other bytes before the block, as many: other blocks, or another gap.
    fn edited_before(&self, random: &mut Random) -> Blocks {
        if self.shape.kind == 1 && (self.before.is_empty() || random.percent(40)) {
            return self.another_gap(random);
        }
        let (blocks, count) = self.as_long_before(random);
        ([&blocks, self.gap].concat(), count)
    }

    /// Another gap before the block: of the same length, with no block before it, or of another length where other blocks make up for it.
    fn another_gap(&self, random: &mut Random) -> Blocks {
        let (blocks, count) = rendered(self.before);
        let total = blocks.len() + self.gap.len();
        let (length, fewer) = (random.below(total.min(12) + 1), random.from_to(1, count.max(1)));
        match (random.below(3), self.shape.run(random, fewer, total - length)) {
            (0, _) => (gaps::run(random, total), 0),
            (1, Some(others)) => ([others, gaps::run(random, length)].concat(), fewer),
            _ => ([blocks, gaps::run(random, self.gap.len())].concat(), count),
        }
    }

    /// Whether there may be other blocks after it.
    fn can_after(&self) -> bool {
        !self.after.is_empty() || !self.counted
    }

    /// The general block: its header stays, its data may change.
    fn general_block(&self, random: &mut Random, edit: bool) -> Vec<u8> {
        let mut general = self.general.cloned();
        for block in general.iter_mut().filter(|_| edit) {
            block.data = edits::pixels(random, &block.data);
        }
        general.map_or(vec![], |block| block.render())
    }

    /// The blocks before, edited in as many bytes; perhaps in another number of blocks.
    fn as_long_before(&self, random: &mut Random) -> Blocks {
        let tries = random.pick(&[0, 0, 3]);
        if let Some(blocks) = (0..tries).find_map(|_| self.other_number(random)) {
            return blocks;
        }
        let number = random.below(self.before.len());
        let mut bytes = Vec::new();
        for (other, block) in self.before.iter().enumerate() {
            let edit = other == number || random.percent(40);
            bytes.extend(if edit { self.as_long(random, block) } else { block.render() });
        }
        (bytes, self.before.len())
    }

    /// A block edited in as many bytes: other pixels, another block, other keywords.
    fn as_long(&self, random: &mut Random, block: &BlockPlan) -> Vec<u8> {
        let bytes = block.render();
        let header = bytes.len() - block.data.len();
        let edited = match random.below(4) {
            0 => Some(BlockPlan { data: edits::pixels(random, &block.data), ..block.clone() }.render()),
            1 => self.shape.run(random, 1, bytes.len()),
            _ => {
                let edited = edits::keywords(random, self.shape, block);
                self.shape.fitted(random, &edited, header, bytes.len())
            }
        };
        edited.unwrap_or(bytes)
    }

    /// Another number of blocks in as many bytes; a general header is to count as many blocks in all.
    fn other_number(&self, random: &mut Random) -> Option<Blocks> {
        let total = rendered(self.before).0.len();
        let most = self.before.len() + if self.counted { self.after.len().min(2) } else { 2 };
        let count = Some(random.from_to(1, most.max(1))).filter(|count| *count != self.before.len() && !self.before.is_empty())?;
        Some((self.shape.run(random, count, total)?, count))
    }

    /// The blocks after, edited freely, some taken away, some new, and another gap. With a general header there are as many as it says.
    fn edited_after(&self, random: &mut Random, before: usize) -> Vec<u8> {
        let count = match self.counted {
            true => self.after.len() + self.before.len() - before,
            false => (self.after.len() + random.below(4)).saturating_sub(1),
        };
        let mut blocks: Vec<BlockPlan> = self.after.iter().map(|block| self.freely(random, block)).collect();
        while blocks.len() > count {
            blocks.remove(random.below(blocks.len()));
        }
        while blocks.len() < count {
            let place = random.below(blocks.len() + 1);
            blocks.splice(place..place, self.shape.new_blocks(random, 1));
        }
        [rendered(&blocks).0, self.shape.gap(random)].concat()
    }

    /// A block edited freely: keywords, pixels, its length, in kind 1 the gap before it.
    fn freely(&self, random: &mut Random, block: &BlockPlan) -> BlockPlan {
        let mut block = match random.below(4) {
            0 => block.clone(),
            1 => BlockPlan { data: edits::pixels(random, &block.data), ..block.clone() },
            2 => self.shape.new_blocks(random, 1).remove(0),
            _ => edits::keywords(random, self.shape, block),
        };
        if random.percent(30) {
            let length = random.below(300);
            self.shape.set_data(random, &mut block, length);
        }
        if self.shape.kind == 1 && random.percent(50) {
            block.lead = self.shape.gap(random);
        }
        block
    }

    /// Blocks in place of those before, in any number of bytes.
    fn any_before(&self, random: &mut Random) -> Blocks {
        let mut blocks = self.before.to_vec();
        match random.below(4) {
            0 => blocks.clear(),
            1 if !blocks.is_empty() => drop(blocks.remove(random.below(blocks.len()))),
            2 if !blocks.is_empty() => {
                let (number, length) = (random.below(blocks.len()), random.below(900));
                self.shape.set_data(random, &mut blocks[number], length);
            }
            _ => {
                let (place, count) = (random.below(blocks.len() + 1), random.from_to(1, 3));
                blocks.splice(place..place, self.shape.new_blocks(random, count));
            }
        }
        rendered(&blocks)
    }
}
