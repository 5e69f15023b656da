//! Mutations around checks 9 to 15: EDF_ keys, Size, lengths, identities and counts.

use super::dress;
use super::gaps;
use super::plan::{BlockPlan, Plan, Statement};
use super::random::Random;
use super::shapes::any_block;
use super::words::{numeral, IDENTITIES, ODD_NUMERALS, VERSIONS};

const NUMBERS: [&str; 6] =
    ["Size", "EDF_BinarySize", "EDF_HeaderSize", "EDF_DataBlocks", "EDF_BlockBoundary", "EDF_DataFormatVersion"];

/// 9: a number written in an odd way.
pub fn number(random: &mut Random, plan: &mut Plan) -> Option<()> {
    let key = random.pick(&NUMBERS);
    let value = random.pick(&ODD_NUMERALS);
    let first = key.contains("DataBlocks") || key.contains("Boundary");
    let block = if first { plan.blocks.first_mut()? } else { any_block(random, plan)? };
    block.set_at_top(key.as_bytes(), value.as_bytes());
    Some(())
}

/// 9: identities, memories at the lower end most often.
pub fn identity(random: &mut Random, plan: &mut Plan) -> Option<()> {
    let value = match random.below(3) {
        0 => format!("{}.Image.Psd.{}", random.below(3), random.pick(&["0", "1", "01", "+1", "2", "-2"])),
        _ => random.pick(&IDENTITIES).to_string(),
    };
    let written = dress::value(random, value.as_bytes());
    let block = any_block(random, plan)?;
    let place = block.place(b"EDF_DataBlockID")?;
    block.statements[place].value = written;
    Some(())
}

/// 9: versions.
pub fn version(random: &mut Random, plan: &mut Plan) -> Option<()> {
    let value = random.pick(&VERSIONS);
    let block = plan.blocks.first_mut()?;
    let place = block.place(b"EDF_DataFormatVersion")?;
    block.statements[place].value = dress::value(random, value.as_bytes());
    Some(())
}

/// 9: the first and second keys.
pub fn first_keys(random: &mut Random, plan: &mut Plan) -> Option<()> {
    let block = any_block(random, plan)?;
    let count = block.statements.len();
    match random.below(6) {
        0 if count > 1 => block.statements.swap(0, 1),
        1 if count > 2 => block.statements.swap(1, 2),
        2 if count > 0 => drop(block.statements.remove(0)),
        3 if count > 1 => drop(block.statements.remove(1)),
        4 => block.statements.clear(),
        _ => {
            let key = random.pick(&["HeaderID", "EDF_New", "EDF_DataFormatVersion", "EDF_DataBlockID", "edf"]);
            let value = random.pick(&["1.Image.Psd", "2.42", "x", ""]);
            block.statements.insert(random.below(2).min(count), Statement::new(key.as_bytes(), value.as_bytes()));
        }
    }
    Some(())
}

/// 10: an external file, counting or not.
pub fn external(random: &mut Random, plan: &mut Plan) -> Option<()> {
    let block = any_block(random, plan)?;
    let place = random.from_to(block.top().min(1), (block.top() + 1).min(block.statements.len()));
    let key = dress::key(random, "EDF_BinaryFileName");
    block.statements.insert(place, Statement::new(&key, b" other.bin "));
    Some(())
}

/// 11: lengths beside a multiple, some before data that is not there.
pub fn length(random: &mut Random, plan: &mut Plan) -> Option<()> {
    let (key, shift) = (size_key(plan), random.pick(&[1, 2, 256, 511, 512]));
    let short = random.percent(20);
    let block = any_block(random, plan)?;
    block.shift = shift;
    if short {
        block.set_at_top(key, b"99999999");
    }
    Some(())
}

/// 9 and 11: boundaries said and kept.
pub fn boundary(random: &mut Random, plan: &mut Plan) -> Option<()> {
    if !plan.general {
        return None;
    }
    let said = random.pick(&[1, 3, 10, 256, 512, 513, 1_024, 65_536, 65_537, i64::MAX]);
    let kept = random.percent(60) && said <= 1_024;
    let value = numeral(random, said);
    plan.blocks[0].set_at_top(b"EDF_BlockBoundary", value.as_bytes());
    for block in plan.blocks.iter_mut().filter(|_| kept) {
        block.boundary = said as usize;
    }
    Some(())
}

/// 11: EDF_HeaderSize beside the length, counting or not.
pub fn header_size(random: &mut Random, plan: &mut Plan) -> Option<()> {
    let value = random.pick(&["511", "512", "+512", "0512", "513", "1024", "-512", "0", "512.0", "9223372036854775807"]);
    let block = any_block(random, plan)?;
    if random.percent(80) {
        block.set_at_top(b"EDF_HeaderSize", value.as_bytes());
    } else {
        block.set(b"EDF_HeaderSize", value.as_bytes());
    }
    Some(())
}

/// The key that says how long the data of a block is.
pub fn size_key(plan: &Plan) -> &'static [u8] {
    if plan.kind == 1 { b"Size" } else { b"EDF_BinarySize" }
}

/// 12: extents one byte off, or far off.
pub fn extent(random: &mut Random, plan: &mut Plan) -> Option<()> {
    let key = size_key(plan);
    let block = any_block(random, plan)?;
    let length = block.data.len();
    match random.below(5) {
        0 => drop(block.data.pop()),
        1 => block.data.push(random.pick(b"\0{\n\r x")),
        2 => block.set_at_top(key, (length + 1).to_string().as_bytes()),
        3 => block.set_at_top(key, random.pick(&["9223372036854775807", "1073741824", "600", "-1"]).as_bytes()),
        _ => block.set_at_top(key, length.saturating_sub(1).to_string().as_bytes()),
    }
    Some(())
}

/// 13: two identities that are, or nearly are, the same values.
pub fn same_identity(random: &mut Random, plan: &mut Plan) -> Option<()> {
    let count = plan.blocks.len();
    let first = usize::from(plan.general);
    if plan.kind == 1 || count < first + 2 {
        return None;
    }
    let (a, b) = (random.from_to(first, count - 1), random.from_to(first, count - 1));
    let sequence = random.pick(&[0, 5, -5, i64::MAX]);
    let forms = ["Psd", "Psd", "Error", "Psd.2", "Psd.02", "Error.+2"];
    for number in [a, b] {
        let value = format!("{}.Image.{}", numeral(random, sequence), random.pick(&forms));
        plan.blocks[number].set(b"EDF_DataBlockID", value.as_bytes());
        if random.percent(10) {
            plan.blocks[number].set_at_top(b"EDF_BinarySize", b"99999999");
        }
    }
    Some(())
}

/// 14: 255 to 257 blocks, and bytes left after them.
pub fn many(random: &mut Random, plan: &mut Plan) -> Option<()> {
    let count = random.from_to(255, 257);
    if plan.general && random.percent(60) {
        many_after_general(random, plan, count);
    } else if random.percent(if plan.kind == 1 { 60 } else { 3 }) {
        many_alone(random, plan, count);
    } else {
        return None;
    }
    plan.after = random.pick(&[&b""[..], b"", b"x", b"{}\n", b" ", b"\n", b" \t\r\n\x0b\x0c", b" x", b"\n{}\n", b"\x0c\0", b"\x0e"]).to_vec();
    Some(())
}

fn many_after_general(random: &mut Random, plan: &mut Plan, count: usize) {
    plan.blocks.truncate(1);
    let said = if random.percent(80) { count - 1 } else { 256 };
    plan.blocks[0].set_at_top(b"EDF_BlockBoundary", b"1");
    plan.blocks[0].set(b"EDF_DataBlocks", said.to_string().as_bytes());
    plan.blocks[0].boundary = 1;
    for number in 1..count {
        plan.blocks.push(small_block(1, Some(number)));
    }
}

/// Blocks that are as short as may be; in kind 1 some with a gap before them.
fn many_alone(random: &mut Random, plan: &mut Plan, count: usize) {
    let spaced = random.percent(50);
    plan.general = false;
    plan.blocks = match plan.kind {
        1 => (0..count).map(|_| small_block(1, None)).collect(),
        _ => (0..count).map(|number| small_block(512, Some(number))).collect(),
    };
    for block in plan.blocks.iter_mut().filter(|_| plan.kind == 1 && spaced) {
        let length = random.below(3);
        block.lead = gaps::run(random, length);
    }
}

fn small_block(boundary: usize, identity: Option<usize>) -> BlockPlan {
    let mut block = BlockPlan::new(boundary);
    if let Some(number) = identity {
        block.set(b"EDF_DataBlockID", format!("{number}.Image.Psd").as_bytes());
    }
    block
}

/// 15: counts beside the number of data blocks.
pub fn count(random: &mut Random, plan: &mut Plan) -> Option<()> {
    let data_blocks = plan.blocks.len() as i64 - 1;
    let block = plan.blocks.first_mut()?;
    let place = block.place(b"EDF_DataBlocks")?;
    let shift = random.pick(&[-1, 0, 1, 1, 300]);
    let value = match random.below(4) {
        0 => random.pick(&["Undetermined", "Undetermined", "undetermined", "UNDETERMINED"]).to_string(),
        _ => numeral(random, data_blocks + shift),
    };
    block.statements[place].value = dress::value(random, value.as_bytes());
    Some(())
}

/// An EDF_ key moved behind another key no longer counts.
pub fn late(random: &mut Random, plan: &mut Plan) -> Option<()> {
    let block = any_block(random, plan)?;
    let place = random.below(block.top());
    if place >= block.statements.len() {
        return None;
    }
    let statement = block.statements.remove(place);
    block.statements.push(statement);
    Some(())
}

/// Blocks taken out, doubled or swapped.
pub fn blocks(random: &mut Random, plan: &mut Plan) -> Option<()> {
    let (a, b) = (random.below(plan.blocks.len()), random.below(plan.blocks.len()));
    match random.below(3) {
        0 => drop(plan.blocks.remove(a)),
        1 => plan.blocks.insert(b, plan.blocks[a].clone()),
        _ => plan.blocks.swap(a, b),
    }
    Some(())
}

/// The lister's limit: files of 65,535 to 65,537 bytes.
pub fn whole_length(random: &mut Random, plan: &mut Plan) -> Option<()> {
    if plan.blocks.len() > 5 || !random.percent(40) {
        return None;
    }
    let wanted = random.from_to(65_535, 65_537);
    let more = wanted.checked_sub(plan.render().len())?;
    let key = size_key(plan);
    let block = plan.blocks.last_mut()?;
    block.data.resize(block.data.len() + more, 7);
    let length = block.data.len().to_string();
    block.set_at_top(key, length.as_bytes());
    Some(())
}
