//! Gaps: whitespace before the first header, between blocks and after the last, and mutations around them (02, No. 4).

use super::edf_keys::size_key;
use super::mutate::Mutation;
use super::plan::{Plan, Statement};
use super::random::Random;
use super::shapes::any_block;
use super::{edf_keys, shapes};
use crate::reader::white::WHITE;

/// Bytes that are nearly whitespace.
pub const NEAR: [u8; 7] = [0, 8, 14, 31, 33, 127, 128];

/// What may stand before a brace: start patterns, what is nearly one, and single bytes.
const LEADS: [&[u8]; 14] =
    [b"", b"\n", b"\r\n", b"\n\n", b"\r", b" ", b"\t", b"\x0b", b"\x0c", b"\n\r", b"\r\n\r\n", b" \n", b"x", b"\n\r\n"];

/// So many bytes of whitespace.
pub fn run(random: &mut Random, length: usize) -> Vec<u8> {
    (0..length).map(|_| random.pick(&WHITE)).collect()
}

/// Whitespace, mostly little of it or none; seldom more than a header may have bytes.
pub fn white(random: &mut Random) -> Vec<u8> {
    let length = match random.below(400) {
        0 => random.pick(&[65_535, 65_536, 66_000]),
        1..=4 => random.from_to(500, 600),
        5..=159 => 0,
        160..=239 => return random.pick(&[&b"\n"[..], b"\r\n", b"\n\n"]).to_vec(),
        240..=299 => 1,
        _ => random.from_to(2, 9),
    };
    run(random, length)
}

/// At least one byte of whitespace.
fn some_white(random: &mut Random) -> Vec<u8> {
    let length = random.from_to(1, 5);
    run(random, length)
}

/// A byte that is nearly whitespace, with whitespace around it or not.
fn near(random: &mut Random) -> Vec<u8> {
    let [before, after] = [0, 0].map(|_| {
        let length = random.below(3);
        run(random, length)
    });
    [before, vec![random.pick(&NEAR)], after].concat()
}

/// A gap, or bytes that are none.
fn gap(random: &mut Random) -> Vec<u8> {
    match random.below(5) {
        0 | 1 => random.pick(&LEADS).to_vec(),
        2 | 3 => near(random),
        _ => some_white(random),
    }
}

/// 3: before the first header.
pub fn before(random: &mut Random, plan: &mut Plan) -> Option<()> {
    plan.blocks.first_mut()?.lead = gap(random);
    Some(())
}

/// 3: before any header.
pub fn between(random: &mut Random, plan: &mut Plan) -> Option<()> {
    any_block(random, plan)?.lead = gap(random);
    Some(())
}

/// 3: after the last block.
pub fn after(random: &mut Random, plan: &mut Plan) -> Option<()> {
    plan.after = match random.below(3) {
        0 => [some_white(random), random.pick(&[&b"x"[..], b"{", b"{}\n", b"{}\n "]).to_vec()].concat(),
        _ => gap(random),
    };
    Some(())
}

/// 3: no header at all.
pub fn no_block(random: &mut Random, plan: &mut Plan) -> Option<()> {
    if !random.percent(30) {
        return None;
    }
    plan.blocks.clear();
    plan.after = if random.percent(70) { white(random) } else { near(random) };
    Some(())
}

/// Mutations that break a rule of a header, in most draws: 6 to 9 and 11, then 4 and 5.
const FAULTS: [Mutation; 10] = [
    shapes::no_statement, shapes::long, shapes::long, shapes::again, shapes::again, edf_keys::number, edf_keys::first_keys, edf_keys::header_size,
    shapes::stop, shapes::close,
];

/// A mutation of the first block alone.
fn of_first(random: &mut Random, plan: &mut Plan, mutation: Mutation) -> Option<()> {
    let later = plan.blocks.split_off(1);
    let done = mutation(random, plan);
    plan.blocks.extend(later);
    done
}

/// 3 at 0, and which checks come before it and after: a first header with something before it, and another fault.
pub fn before_and_fault(random: &mut Random, plan: &mut Plan) -> Option<()> {
    let fault = random.pick(&FAULTS);
    of_first(random, plan, fault)?;
    plan.blocks.first_mut()?.lead = random.pick(&LEADS).to_vec();
    Some(())
}

/// 4, 5 and 11: headers at both sides of 65,536 bytes, counted from the brace or from what stands before it; seldom with another fault.
pub fn window(random: &mut Random, plan: &mut Plan) -> Option<()> {
    if plan.blocks.len() > 5 {
        return None;
    }
    let faulty = random.percent(35);
    if faulty {
        let fault = random.pick(&FAULTS[..7]);
        of_first(random, plan, fault)?;
    }
    if plan.general && random.percent(60) {
        plan.blocks[0].set_at_top(b"EDF_BlockBoundary", b"1");
        plan.blocks.iter_mut().for_each(|block| block.boundary = 1);
    }
    let lead = random.pick(&[&b""[..], b"\n", b"\n", b"\r\n", b"\r\n", b"\n\n", b" "]);
    let length = random.pick(&[65_535, 65_536, 65_536, 65_536, 65_537, 65_537, 65_538, 66_048]);
    let counted = if random.percent(60) { lead.len() } else { 0 };
    let stopped = random.percent(10);
    let block = if faulty || random.percent(40) { plan.blocks.first_mut()? } else { plan.blocks.last_mut()? };
    block.lead = lead.to_vec();
    block.exact_length = Some(counted + length);
    if stopped {
        block.close = random.pick(&[&b"\0"[..], b"{", b"\x80"]).to_vec();
    }
    Some(())
}

/// EDF_ keys that are ignored in kind 1, in any statement but the file's first.
pub fn ignored(random: &mut Random, plan: &mut Plan) -> Option<()> {
    let keys = ["EDF_HeaderSize", "EDF_HeaderSize", "EDF_HeaderSize", "EDF_BinarySize", "EDF_BlockBoundary", "EDF_DataBlockID", "EDF_BinaryFileName"];
    let statement = Statement::new(random.pick(&keys).as_bytes(), random.pick(&[&b"511"[..], b"512", b"1", b"0", b"x", b"1024"]));
    let number = random.below(plan.blocks.len());
    let block = plan.blocks.get_mut(number).filter(|block| plan.kind == 1 && (number > 0 || !block.statements.is_empty()))?;
    block.remove(&statement.key);
    let place = random.from_to(usize::from(number == 0).min(block.statements.len()), block.statements.len());
    block.statements.insert(place, statement);
    Some(())
}

/// 12: data of whitespace, a gap right after it, and a length that takes a byte of the gap or leaves one to it.
pub fn white_data(random: &mut Random, plan: &mut Plan) -> Option<()> {
    let (key, number) = (size_key(plan), random.below(plan.blocks.len()));
    let gap = some_white(random);
    let data = run(random, plan.blocks[number].data.len().max(1));
    let length = data.len() + random.pick(&[0, 0, 1, gap.len(), gap.len() + 1]) - random.below(2);
    plan.blocks[number].data = data;
    plan.blocks[number].set_at_top(key, length.to_string().as_bytes());
    let holder = plan.blocks.get_mut(number + 1).map_or(&mut plan.after, |block| &mut block.lead);
    *holder = gap;
    Some(())
}

#[cfg(test)]
mod tests {
    use super::*;
    use crate::generate::plan::BlockPlan;

    #[test]
    fn runs_have_all_whitespace_and_nothing_else() {
        let random = &mut Random::new(3);
        let bytes = run(random, 200);
        assert!(WHITE.iter().all(|byte| bytes.contains(byte)) && bytes.iter().all(|byte| WHITE.contains(byte)));
        assert!((0..2_000).flat_map(|_| white(random)).all(|byte| WHITE.contains(&byte)));
    }

    #[test]
    fn later_blocks_stay_as_they_are() {
        let random = &mut Random::new(4);
        let mut plan = Plan { kind: 1, general: false, blocks: vec![BlockPlan::new(1); 3], after: vec![] };
        while of_first(random, &mut plan, shapes::long).is_none() {}
        let counts: Vec<usize> = plan.blocks.iter().map(|block| block.statements.len()).collect();
        assert_eq!(counts, [1, 0, 0]);
    }
}
