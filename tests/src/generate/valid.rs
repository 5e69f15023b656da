//! Valid files of both kinds, built from the grammar.

use super::dress;
use super::gaps;
use super::plan::{BlockPlan, Plan, Statement, OWN_LENGTH};
use super::random::Random;
use super::reals;
use super::words::{numeral, DEFAULT_TYPE, FIELDS, REAL_KEYS, TYPES, WIDTHS};

/// A key and its value.
type Field = (String, String);

/// The fields of an array and its length in bytes.
#[derive(Clone)]
struct Array {
    fields: Vec<Field>,
    length: usize,
}

/// What blocks of a file share: an array, and those of its fields that the general header gives.
struct Shared {
    array: Array,
    given: Vec<Field>,
}

/// A valid plan; a description may still be refused where own and general fields mix.
pub fn valid(random: &mut Random) -> Plan {
    let kind = if random.percent(30) { 1 } else { 2 };
    let general = kind == 2 && random.percent(50);
    let boundary = match kind {
        1 => any_length(random),
        _ if general && random.percent(50) => random.pick(&[1, 2, 7, 16, 64, 100, 512, 1_024]),
        _ => 512,
    };
    let count = block_count(random, boundary);
    of_blocks(random, kind, general, boundary, count)
}

/// Headers of kind 1 are multiples of this: most of them just as long as they need be.
pub fn any_length(random: &mut Random) -> usize {
    random.pick(&[1, 1, 1, 7, 512])
}

/// The same with so many data blocks; a file of kind 2 may have another boundary than 512 only with a general header.
pub fn of_blocks(random: &mut Random, kind: u8, general: bool, boundary: usize, count: usize) -> Plan {
    let shared = shared(random, general);
    let mut blocks = Vec::new();
    if general {
        blocks.push(general_block(random, boundary, count, &shared.given));
    }
    let first = random.pick(&[0, 1, 1, 1, -3, i64::MIN, 1_000_000]);
    for number in 0..count as i64 {
        let identity = identity(random, first + number);
        blocks.push(data_block(random, kind, boundary, &identity, &shared, count > 30));
    }
    let after = if kind == 1 { gaps::white(random) } else { vec![] };
    Plan { kind, general, blocks, after }
}

fn shared(random: &mut Random, general: bool) -> Shared {
    let array = array(random);
    let given = array.fields.iter().filter(|_| general && random.percent(60)).cloned().collect();
    Shared { array, given }
}

/// Few blocks mostly; many where headers may be short, and else seldom.
fn block_count(random: &mut Random, boundary: usize) -> usize {
    match random.below(100) {
        0..=49 => 1,
        50..=89 => random.from_to(2, 4),
        90..=97 => random.from_to(5, 12),
        _ if boundary >= 64 && !random.percent(40) => 1,
        98 => random.from_to(13, 252),
        _ => random.from_to(253, 257),
    }
}

/// Identities with different sequences; the rest is free.
fn identity(random: &mut Random, sequence: i64) -> String {
    let instance = random.pick(&["Psd", "Psd", "Error"]);
    let number = numeral(random, sequence);
    match random.below(5) {
        0 => {
            let memory = random.pick(&[2, 3, 9, i64::MAX]);
            format!("{number}.Image.{instance}.{}", numeral(random, memory))
        }
        _ => format!("{number}.Image.{instance}"),
    }
}

fn statement(random: &mut Random, key: &str, value: &str) -> Statement {
    let key = dress::key(random, key);
    let value = dress::value(random, value.as_bytes());
    Statement::new(&key, &value)
}

/// What stands around a header's body: in kind 1 a gap before it, in kind 2 a start pattern.
fn patterns(random: &mut Random, kind: u8, block: &mut BlockPlan) {
    block.lead = match kind {
        1 => gaps::white(random),
        _ => random.pick(&[&b""[..], b"", b"", b"\n", b"\r\n"]).to_vec(),
    };
    block.close = random.pick(&[&b"}\n"[..], b"}\n", b"}\r\n"]).to_vec();
    block.tail = random.pick(&[&b""[..], b"\r\n", b"\t \x0b\x0c"]).to_vec();
}

fn general_block(random: &mut Random, boundary: usize, count: usize, given: &[Field]) -> BlockPlan {
    let mut block = BlockPlan::new(boundary);
    patterns(random, 2, &mut block);
    let blocks = if count == 1 && random.percent(30) { "Undetermined".to_string() } else { numeral(random, count as i64) };
    let version = random.pick(&["2.42", "1.00", "02.40", "10.10"]);
    let mut top = Vec::new();
    if boundary != 512 || random.percent(20) {
        let number = numeral(random, boundary as i64);
        top.push(statement(random, "EDF_BlockBoundary", &number));
    }
    common_top(random, &mut top, &mut block);
    block.statements = vec![statement(random, "EDF_DataFormatVersion", version), statement(random, "EDF_DataBlocks", &blocks)];
    block.statements.extend(shuffled(random, top));
    add_fields(random, &mut block, given);
    block
}

/// EDF_ keys that may stand in any header of kind 2; EDF_ and the name of a field is as unknown as any other.
fn common_top(random: &mut Random, top: &mut Vec<Statement>, block: &mut BlockPlan) {
    if random.percent(10) {
        let length = random.below(5);
        block.data = random.bytes(length);
    }
    if !block.data.is_empty() || random.percent(20) {
        let size = numeral(random, block.data.len() as i64);
        top.push(statement(random, "EDF_BinarySize", &size));
    }
    if random.percent(25) {
        top.push(Statement::new(b"EDF_HeaderSize ", OWN_LENGTH));
    }
    if random.percent(25) {
        let name = if random.percent(50) { "Unknown" } else { random.pick(&FIELDS) };
        top.push(statement(random, &format!("EDF_{name}"), "junk"));
    }
}

/// The shared array, some of what the general header gives left to it, or an array of its own.
fn array_in(random: &mut Random, shared: &Shared) -> Array {
    if random.percent(50) {
        return array(random);
    }
    let mut own = shared.array.clone();
    own.fields.retain(|field| !shared.given.contains(field) || random.percent(40));
    own
}

fn data_block(random: &mut Random, kind: u8, boundary: usize, identity: &str, shared: &Shared, tiny: bool) -> BlockPlan {
    let mut block = BlockPlan::new(boundary);
    patterns(random, kind, &mut block);
    let own = array_in(random, shared);
    if !tiny {
        let more = random.pick(&[0, 0, 1, 7]);
        block.data = data(random, own.length + more);
    }
    if kind == 2 {
        let mut top = Vec::new();
        common_top(random, &mut top, &mut block);
        if random.percent(10) {
            top.push(statement(random, "EDF_BlockBoundary", "junk"));
        }
        block.statements = vec![statement(random, "EDF_DataBlockID", identity)];
        block.statements.extend(shuffled(random, top));
    }
    let mut fields = if tiny { vec![] } else { own.fields };
    if kind == 1 && (!block.data.is_empty() || random.percent(20)) {
        fields.push(("Size".to_string(), numeral(random, block.data.len() as i64)));
    }
    if kind == 2 && random.percent(10) {
        fields.push(("Size".to_string(), "junk".to_string()));
    }
    add_fields(random, &mut block, &fields);
    if kind == 1 && block.top() > 0 {
        block.statements.insert(0, Statement::new(b"\r\nHeaderID ", b" EH:000001:000000:000000 "));
    }
    block
}

fn add_fields(random: &mut Random, block: &mut BlockPlan, fields: &[Field]) {
    let mut statements: Vec<Statement> = fields.iter().map(|(key, value)| statement(random, key, value)).collect();
    if random.percent(40) {
        let length = random.pick(&[0, 1, 5, 40]);
        let bytes = dress::value_bytes(random, length);
        let value = dress::value(random, &bytes);
        statements.push(Statement::new(&dress::key(random, "Title"), &value));
    }
    if random.percent(20) {
        let number = random.next() as i64;
        let value = numeral(random, number);
        statements.push(statement(random, "Note", &value));
    }
    for key in REAL_KEYS {
        if random.percent(30) {
            let value = reals::text(random);
            statements.push(statement(random, key, &value));
        }
    }
    let mut late = shuffled(random, statements);
    if random.percent(10) && !late.is_empty() {
        late.push(statement(random, "EDF_BinaryFileName", "late"));
    }
    block.statements.extend(late);
}

fn shuffled(random: &mut Random, mut statements: Vec<Statement>) -> Vec<Statement> {
    for last in (1..statements.len()).rev() {
        statements.swap(last, random.below(last + 1));
    }
    statements
}

/// Fields of an array, some left to their defaults.
fn array(random: &mut Random) -> Array {
    let code = random.below(10);
    let n = random.pick(&[0, 1, 2, 2, 2, 3, 3]);
    let dims = dims(random, n);
    let configurations = [2, 2, 8, 48][n] as usize;
    let mut fields: Vec<Field> = vec![];
    if TYPES[code] != DEFAULT_TYPE || random.percent(50) {
        fields.push(("DataType".to_string(), TYPES[code].to_string()));
    }
    let mut maybe = |random: &mut Random, key: &str, value: String| {
        if random.percent(70) {
            fields.push((key.to_string(), value));
        }
    };
    let order = random.pick(&["HighByteFirst", "LowByteFirst", "LowByteFirst"]);
    maybe(random, "ByteOrder", order.to_string());
    let configuration = random.from_to(1, configurations);
    maybe(random, "DataRasterConfiguration", configuration.to_string());
    if random.percent(50) {
        let orientation = random.from_to(1, configurations);
        maybe(random, "RasterOrientation", orientation.to_string());
        maybe(random, "Compression", "None".to_string());
    }
    let float = TYPES[code].starts_with("Float");
    if !float && random.percent(60) {
        let shift = random.pick(&[0, 1, -1, 10, -5, 128, -300, 70_000, i64::MAX, i64::MIN]);
        let written = numeral(random, shift);
        maybe(random, "DataValueOffset", written);
    }
    for (dim, number) in dims.iter().zip(1..) {
        fields.push((format!("Dim_{number}"), numeral(random, *dim as i64)));
    }
    if n == 0 && random.percent(30) {
        fields.push(("Dim_2".to_string(), "3".to_string()));
    }
    let elements: usize = if n == 0 { 0 } else { dims.iter().product() };
    Array { fields, length: elements * WIDTHS[code] }
}

/// Small Dims, and sometimes one that is not.
fn dims(random: &mut Random, n: usize) -> Vec<usize> {
    let mut dims: Vec<usize> = (0..n).map(|_| random.from_to(1, 4)).collect();
    if n > 0 && random.percent(10) {
        dims[random.below(n)] = random.from_to(5, 100);
    }
    dims
}

/// Pixels: random, small, extreme, whitespace, or full of header patterns.
fn data(random: &mut Random, length: usize) -> Vec<u8> {
    match random.below(6) {
        0 => (0..length).map(|i| b"}\n{\r"[i % 4]).collect(),
        1 => (0..length).map(|_| random.pick(&[0, 1, 127, 128, 254, 255])).collect(),
        2 => (0..length).map(|i| i as u8).collect(),
        3 => gaps::run(random, length),
        _ => random.bytes(length),
    }
}

#[cfg(test)]
mod tests {
    use super::*;
    use crate::reader::open;

    #[test]
    fn valid_plans_open() {
        let mut random = Random::new(11);
        let mut refused = 0;
        for _ in 0..2_000 {
            let plan = valid(&mut random);
            let answer = open(&plan.render(), 256);
            if plan.blocks.len() <= 256 {
                assert!(answer.is_ok(), "{answer:?} {}", String::from_utf8_lossy(&plan.render()));
            } else {
                refused += 1;
                assert_eq!(answer.map_err(|e| e.code), Err(14));
            }
        }
        assert!(refused > 0);
    }
}
