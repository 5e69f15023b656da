//! Mutations around origins: which header a field stands in, and fields that stand in none.

use super::dress;
use super::plan::{BlockPlan, Plan, Statement};
use super::random::Random;
use super::shapes::any_block;
use super::words::{DEFAULTS, FIELDS, TYPES};

/// The general header and a data block; none in a file without a general header.
fn general_and_data<'a>(random: &mut Random, plan: &'a mut Plan) -> Option<(&'a mut BlockPlan, &'a mut BlockPlan)> {
    let (general, others) = plan.blocks.split_first_mut().filter(|_| plan.general)?;
    let number = random.below(others.len());
    Some((general, others.get_mut(number)?))
}

/// The statement of a key goes from one header to another, its key written anew; one that stands there makes way.
fn hand_over(random: &mut Random, name: &str, from: &mut BlockPlan, to: &mut BlockPlan) -> Option<()> {
    let statement = from.statements.remove(from.place(name.as_bytes())?);
    to.remove(name.as_bytes());
    to.statements.push(Statement { key: dress::key(random, name), ..statement });
    Some(())
}

/// Adds a statement unless its key stands there.
fn set_if_absent(block: &mut BlockPlan, name: &str, value: &str) {
    if block.place(name.as_bytes()).is_none() {
        block.set(name.as_bytes(), value.as_bytes());
    }
}

/// A value that the field may have.
fn good_value(random: &mut Random, name: &str) -> &'static str {
    match name {
        "DataType" => random.pick(&TYPES),
        "ByteOrder" => random.pick(&["HighByteFirst", "LowByteFirst"]),
        "Compression" => "None",
        "DataValueOffset" => random.pick(&["0", "0", "1", "-1"]),
        _ => random.pick(&["1", "1", "2"]),
    }
}

/// One field of a data block, some, or all of them given by the general header, or the other way round.
pub fn handed_over(random: &mut Random, plan: &mut Plan) -> Option<()> {
    let (general, data) = general_and_data(random, plan)?;
    let (from, to) = if random.percent(70) { (data, general) } else { (general, data) };
    let share = random.pick(&[10, 10, 30, 100]);
    let names: Vec<&str> = FIELDS.into_iter().filter(|_| random.percent(share)).collect();
    let count = names.into_iter().filter_map(|name| hand_over(random, name, from, to)).count();
    Some(()).filter(|_| count > 0)
}

/// A field in both headers; the general one has any good value.
pub fn in_both(random: &mut Random, plan: &mut Plan) -> Option<()> {
    let name = random.pick(&FIELDS);
    let (shared, own) = (good_value(random, name), good_value(random, name));
    let (general, data) = general_and_data(random, plan)?;
    general.set(name.as_bytes(), shared.as_bytes());
    set_if_absent(data, name, own);
    Some(())
}

/// A field written in either header with the value that it would have anyway.
pub fn written_default(random: &mut Random, plan: &mut Plan) -> Option<()> {
    let (name, value) = random.pick(&DEFAULTS);
    let written = dress::value(random, value.as_bytes());
    let block = any_block(random, plan)?;
    block.remove(name.as_bytes());
    block.statements.push(Statement::new(&dress::key(random, name), &written));
    Some(())
}

/// Dim_1 in one header and Dim_2 in the other, or Dim_2 in either without Dim_1.
pub fn dims_apart(random: &mut Random, plan: &mut Plan) -> Option<()> {
    let (general, data) = general_and_data(random, plan)?;
    set_if_absent(data, "Dim_1", "1");
    set_if_absent(data, "Dim_2", "1");
    let (first, second) = random.pick(&[(true, false), (true, false), (false, true), (false, true), (false, false)]);
    general.remove(b"Dim_1");
    general.remove(b"Dim_2");
    if first {
        hand_over(random, "Dim_1", data, general)?;
    }
    if second {
        hand_over(random, "Dim_2", data, general)?;
    }
    if random.percent(45) {
        data.remove(b"Dim_1");
        general.remove(b"Dim_1");
    }
    Some(())
}

/// No general header: what the first block has is not inherited, also where its last key is one of a general header.
pub fn not_inherited(random: &mut Random, plan: &mut Plan) -> Option<()> {
    let (first, others) = plan.blocks.split_first_mut().filter(|_| !plan.general)?;
    let other = others.last_mut()?;
    let name = random.pick(&FIELDS);
    set_if_absent(first, name, good_value(random, name));
    if random.percent(50) {
        set_if_absent(first, "EDF_DataFormatVersion", "2.42");
    }
    other.remove(name.as_bytes());
    Some(())
}
