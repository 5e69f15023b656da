//! Mutations around codes 17 to 21 and 25: fields of the array, its data, texts.

use super::dress;
use super::plan::Plan;
use super::random::Random;
use super::shapes::any_block;
use super::words::{numeral, KNOWN_WORDS, ODD_NUMERALS, TYPES, UNKNOWN_WORDS};

/// 17: words known and unknown.
pub fn word(random: &mut Random, plan: &mut Plan) -> Option<()> {
    let key = random.pick(&["DataType", "ByteOrder", "Compression"]);
    let value = match random.below(4) {
        0 => random.pick(&TYPES),
        1 => random.pick(&KNOWN_WORDS),
        _ => random.pick(&UNKNOWN_WORDS),
    };
    let written = dress::value(random, value.as_bytes());
    any_block(random, plan)?.set(key.as_bytes(), &written);
    Some(())
}

/// 18: Dims at the ends of their range.
pub fn dim(random: &mut Random, plan: &mut Plan) -> Option<()> {
    let key = random.pick(&["Dim_1", "Dim_2", "Dim_3"]);
    let value = match random.below(3) {
        0 => random.pick(&ODD_NUMERALS),
        1 => random.pick(&["0", "-1", "1048576", "1048577", "+1048576"]),
        _ => random.pick(&["1", "2", "3", "\"2\""]),
    };
    any_block(random, plan)?.set(key.as_bytes(), value.as_bytes());
    Some(())
}

/// 19: a fourth Dim, and gaps; before a bad configuration.
pub fn four_dims(random: &mut Random, plan: &mut Plan) -> Option<()> {
    let last = plan.blocks.len() - 1;
    let general = plan.general && random.percent(30);
    let block = if random.percent(40) { &mut plan.blocks[last] } else { any_block(random, plan)? };
    for key in ["Dim_1", "Dim_2", "Dim_3"] {
        if block.place(key.as_bytes()).is_none() && random.percent(80) {
            block.set(key.as_bytes(), b"1");
        }
    }
    if random.percent(25) {
        let gap = random.pick(&["Dim_1", "Dim_2", "Dim_3"]);
        block.remove(gap.as_bytes());
    }
    if random.percent(20) {
        block.set(b"DataRasterConfiguration", random.pick(&["0", "49", "x"]).as_bytes());
    }
    let value = random.pick(&["1", "", "x", "0"]);
    let holder = if general { &mut plan.blocks[0] } else { block };
    holder.set(b"Dim_4", value.as_bytes());
    Some(())
}

/// 18: configurations and orientations at both sides of 2^N N!.
pub fn configuration(random: &mut Random, plan: &mut Plan) -> Option<()> {
    let key = random.pick(&["DataRasterConfiguration", "RasterOrientation"]);
    let value = match random.below(4) {
        0 => random.pick(&ODD_NUMERALS).to_string(),
        _ => {
            let number = random.pick(&[-1, 0, 1, 2, 3, 8, 9, 48, 49, 4_294_967_297]);
            numeral(random, number)
        }
    };
    any_block(random, plan)?.set(key.as_bytes(), value.as_bytes());
    Some(())
}

/// 18 and 21: offsets, also on floats.
pub fn offset(random: &mut Random, plan: &mut Plan) -> Option<()> {
    let value = match random.below(3) {
        0 => random.pick(&ODD_NUMERALS),
        1 => random.pick(&["0", "-0", "+00"]),
        _ => random.pick(&["1", "-1", "255", "-65535", "2147483648"]),
    };
    let float = random.pick(&["FloatIEEE32", "FloatIEEE64"]);
    let block = any_block(random, plan)?;
    block.set(b"DataValueOffset", value.as_bytes());
    if random.percent(50) {
        block.set(b"DataType", float.as_bytes());
    }
    Some(())
}

/// 20: an extent a little shorter than the array.
pub fn short_data(random: &mut Random, plan: &mut Plan) -> Option<()> {
    let key: &[u8] = if plan.kind == 1 { b"Size" } else { b"EDF_BinarySize" };
    let less = random.pick(&[1, 1, 2, 8, 9]);
    let block = any_block(random, plan)?;
    block.data.truncate(block.data.len().saturating_sub(less));
    let length = block.data.len().to_string();
    block.set_at_top(key, length.as_bytes());
    Some(())
}

/// 25: texts of 1,022 to 1,025 characters.
pub fn long_text(random: &mut Random, plan: &mut Plan) -> Option<()> {
    let length = random.from_to(1_022, 1_025);
    let bytes = match random.below(4) {
        0 => b"\\s".repeat(length.min(1_024)),
        1 => [b"a\r\n".repeat(3), vec![b'a'; length - 3]].concat(),
        2 => [vec![b'a'; length], b"\\".to_vec()].concat(),
        _ => vec![b'a'; length],
    };
    let written = dress::value(random, &bytes);
    any_block(random, plan)?.set(b"Title", &written);
    Some(())
}

/// A field left out, or emptied: an empty own value hides the general header's.
pub fn missing(random: &mut Random, plan: &mut Plan) -> Option<()> {
    let keys = ["DataType", "ByteOrder", "Dim_1", "Dim_2", "Dim_3", "DataRasterConfiguration", "DataValueOffset", "Title"];
    let key = random.pick(&keys);
    let emptied = random.percent(40);
    let block = any_block(random, plan)?;
    if emptied {
        block.set(key.as_bytes(), random.pick(&[&b""[..], b" ", b"\"", b"\"\""]));
    } else {
        block.remove(key.as_bytes());
    }
    Some(())
}
