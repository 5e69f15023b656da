//! Pairs of files that share a block: the rest of the file and its gaps are edited around it, the block is moved, or it is alone. Files to be
//! laid end to end, and files that differ in the general header.

pub mod ask;
pub mod edits;
pub mod fit;
pub mod rest;

use super::plan::{BlockPlan, Plan, Statement};
use super::random::Random;
use super::valid;
use crate::independence::{bytes_of, opened, shift, Pair};
use crate::compare::Reader;
use fit::Shape;

/// How the second file of a pair comes from the first.
#[derive(Clone, Copy, Debug, PartialEq)]
pub enum Law {
    /// The block stays where it is, and the rest is edited.
    Edited,
    /// What stands before the block is longer or shorter; there is no general header.
    Moved,
    /// The block's bytes are a file; there is no general header.
    Alone,
    /// Blocks between the general header and the block are longer or shorter.
    MovedWithGeneral,
}

/// The second reader says which pairs are of use.
pub const SECOND: Reader = |file, call| Some(crate::answer::answer(file, call));

/// The pair with this number of a seed; none if either file is refused, the block has another row in the second, or the files are the same.
pub fn pair(law: Law, seed: u64, number: usize) -> Option<Pair> {
    Some(drawn(law, seed, number)).filter(|pair| pair.one != pair.other && shift(SECOND, pair).is_some())
}

/// The same, whether it is of use or not.
pub fn drawn(law: Law, seed: u64, number: usize) -> Pair {
    let random = &mut numbers(1 + law as u64, seed, number);
    match law {
        Law::Edited => {
            let plan = any_plan(random);
            rest::edited(random, &plan)
        }
        Law::Moved => {
            let plan = plan_without_general(random);
            rest::moved(random, &plan)
        }
        Law::Alone => alone(random),
        Law::MovedWithGeneral => {
            let plan = plan_with_general(random);
            rest::moved_behind_general(random, &plan)
        }
    }
}

/// Numbers of their own for each use.
fn numbers(what: u64, seed: u64, number: usize) -> Random {
    Random::of(seed.wrapping_mul(16).wrapping_add(what), number as u64)
}

/// Mostly up to 8 blocks, sometimes more; at least as many as this.
fn block_count(random: &mut Random, least: usize) -> usize {
    match random.below(100) {
        0..=1 => random.from_to(9, 40),
        2..=29 => random.from_to(5, 8),
        _ => random.from_to(least, 4),
    }
}

/// A file of either kind, with a general header or none, and at least two blocks.
fn any_plan(random: &mut Random) -> Plan {
    let (kind, general) = random.pick(&[(1, false), (1, false), (2, false), (2, true), (2, true)]);
    let boundary = if general { random.pick(&[512, 512, 1, 7, 64, 100, 1_024]) } else { boundary_of(random, kind) };
    let count = block_count(random, if general { 1 } else { 2 });
    plan(random, kind, general, boundary, count)
}

/// What headers are multiples of, in a file without a general header.
fn boundary_of(random: &mut Random, kind: u8) -> usize {
    if kind == 1 { valid::any_length(random) } else { 512 }
}

/// A file of either kind without a general header.
fn plan_without_general(random: &mut Random) -> Plan {
    let (kind, count) = (random.pick(&[1, 2]), block_count(random, 1));
    let boundary = boundary_of(random, kind);
    plan(random, kind, false, boundary, count)
}

/// A file with a general header and at least two data blocks.
fn plan_with_general(random: &mut Random) -> Plan {
    let (boundary, count) = (random.pick(&[512, 512, 1, 7, 64, 1_024]), block_count(random, 2));
    plan(random, 2, true, boundary, count)
}

/// A valid file; in kind 1 a later block may start with an EDF_ key, and a general block has data more often than elsewhere.
fn plan(random: &mut Random, kind: u8, general: bool, boundary: usize, count: usize) -> Plan {
    let mut plan = valid::of_blocks(random, kind, general, boundary, count);
    plan.blocks.iter_mut().skip(1).filter(|_| kind == 1).for_each(|block| edf_key_first(random, block));
    if general && random.percent(50) {
        let length = random.below(200);
        Shape::of(&plan).set_data(random, &mut plan.blocks[0], length);
    }
    plan
}

/// EDF_ keys at the front of a block of kind 1, where they are ignored; with the first two a block alone would be of kind 2, if its length is a
/// multiple of 512 as well.
fn edf_key_first(random: &mut Random, block: &mut BlockPlan) {
    let size = block.data.len().to_string();
    let good = [("EDF_BinarySize", &size[..]), ("EDF_DataBlockID", "1.Image.Psd")];
    let keys = random.pick(&[&good[..], &good[..], &[("EDF_DataBlockID", "x")], &[("EDF_DataFormatVersion", "2.42")], &[("EDF_BinarySize", "9")]]);
    if random.percent(25) {
        keys.iter().for_each(|(key, _)| block.remove(key.as_bytes()));
        keys.iter().for_each(|(key, value)| block.statements.insert(0, Statement::new(key.as_bytes(), value.as_bytes())));
        if random.percent(85) {
            (block.lead, block.boundary) = (vec![], 512);
        }
    }
}

/// One block of a file, and its bytes alone; in kind 1 sometimes with whitespace around them.
fn alone(random: &mut Random) -> Pair {
    let mut plan = plan_without_general(random);
    let block = random.below(plan.blocks.len());
    field_of(random, &mut plan, block, 40);
    let one = plan.render();
    let row = opened(SECOND, &one).and_then(|rows| rows.get(block).copied());
    let bytes = row.and_then(|row| bytes_of(&one, &row)).unwrap_or_default();
    let other = if random.percent(60) { bytes.to_vec() } else { [&Shape::of(&plan).gap(random), bytes, &Shape::of(&plan).gap(random)].concat() };
    Pair { one, other, block, other_block: 0 }
}

/// In so many of a hundred draws, a field of the block stands at either side of a rule.
fn field_of(random: &mut Random, plan: &mut Plan, block: usize, share: usize) {
    if random.percent(share) {
        plan.blocks[block] = edits::field(random, Shape::of(plan), &plan.blocks[block]);
    }
}

/// Two files of kind 1 to be concatenated; seldom of many blocks, or long.
pub fn two_of_kind_1(seed: u64, number: usize) -> [Vec<u8>; 2] {
    let random = &mut numbers(8, seed, number);
    let counts = match random.below(200) {
        0 => random.pick(&[[255, 1], [1, 255], [128, 128], [200, 56]]),
        _ => [random.from_to(1, 3), random.from_to(1, 3)],
    };
    let mut plans = counts.map(|count| {
        let boundary = boundary_of(random, 1);
        plan(random, 1, false, boundary, count)
    });
    let (file, length) = (random.below(2), random.pick(&[65_000, 65_536, 70_000]));
    let block = random.below(plans[file].blocks.len());
    field_of(random, &mut plans[file], block, 40);
    if random.percent(2) {
        Shape::of(&plans[0]).set_data(random, &mut plans[0].blocks[0], length);
    }
    plans.map(|plan| plan.render())
}

/// Two files of kind 2 without a general header, a few of whose identities may be the same.
pub fn two_of_kind_2(seed: u64, number: usize) -> [Vec<u8>; 2] {
    let random = &mut numbers(9, seed, number);
    [0, 0].map(|_| {
        let count = random.from_to(1, 3);
        plan(random, 2, false, 512, count).render()
    })
}

/// Two files that differ in the header of the general block alone, which has the same length in both; none where the edit needs more room.
pub fn two_general_headers(seed: u64, number: usize) -> Option<[Vec<u8>; 2]> {
    let random = &mut numbers(10, seed, number);
    let (boundary, count) = (random.pick(&[512, 512, 64, 1_024]), random.from_to(1, 4));
    let one = plan(random, 2, true, boundary, count);
    let (general, rest) = one.blocks.split_first()?;
    let header = general.render().len() - general.data.len();
    let edited = edits::keywords(random, Shape::of(&one), general);
    let edited = BlockPlan { exact_length: Some(header), data: general.data.clone(), ..edited };
    let bytes = Some(edited.render()).filter(|bytes| bytes.len() == general.render().len())?;
    let rest: Vec<u8> = rest.iter().flat_map(BlockPlan::render).collect();
    Some([one.render(), [bytes, rest].concat()])
}
