//! Edits of single blocks: keywords, keys, pixels, or another block altogether.

use super::fit::Shape;
use crate::generate::dress;
use crate::generate::mutate::Mutation;
use crate::generate::plan::{plain, BlockPlan, Plan, Statement};
use crate::generate::random::Random;
use crate::generate::words::{FIELDS, KEYS, KNOWN_WORDS, REAL_KEYS, TYPES, UNKNOWN_WORDS};
use crate::generate::{fields, origins, reals, shapes};

/// Mutations of the fields that an array is described by.
const OF_FIELDS: [Mutation; 9] = [
    fields::word, fields::dim, fields::four_dims, fields::configuration, fields::offset, fields::short_data, fields::long_text,
    fields::missing, origins::written_default,
];

/// Mutations of any statements.
const OF_STATEMENTS: [Mutation; 2] = [shapes::long, shapes::crowd];

/// The block after one of these mutations, made as if it were alone in its file.
fn mutated(random: &mut Random, shape: Shape, block: &BlockPlan, mutations: &[Mutation]) -> BlockPlan {
    let mut alone = Plan { kind: shape.kind, general: false, blocks: vec![block.clone()], after: vec![] };
    let mutation = random.pick(mutations);
    mutation(random, &mut alone);
    alone.blocks.remove(0)
}

/// The block with a field of its array at either side of a rule.
pub fn field(random: &mut Random, shape: Shape, block: &BlockPlan) -> BlockPlan {
    mutated(random, shape, block, &OF_FIELDS)
}

/// A value for any key: a word, a number, a real, text.
fn value(random: &mut Random) -> Vec<u8> {
    match random.below(6) {
        0 => random.pick(&TYPES).as_bytes().to_vec(),
        1 => random.pick(&KNOWN_WORDS).as_bytes().to_vec(),
        2 => random.pick(&UNKNOWN_WORDS).as_bytes().to_vec(),
        3 => reals::text(random).into_bytes(),
        4 => random.below(9).to_string().into_bytes(),
        _ => {
            let length = random.below(12);
            dress::value_bytes(random, length)
        }
    }
}

/// Keys that say how a file is cut; edits leave them to others.
fn cuts(key: &[u8]) -> bool {
    let key = plain(key);
    key.starts_with(b"edf_") || key == b"size"
}

/// One statement changed that does not say how the file is cut.
fn changed(random: &mut Random, block: &mut BlockPlan, change: fn(&mut Random, &mut Statement)) {
    let mut statements: Vec<&mut Statement> = block.statements.iter_mut().filter(|statement| !cuts(&statement.key)).collect();
    let number = random.below(statements.len());
    if let Some(statement) = statements.get_mut(number) {
        change(random, statement);
    }
}

/// One or some keywords of a block changed, added or taken away.
pub fn keywords(random: &mut Random, shape: Shape, block: &BlockPlan) -> BlockPlan {
    let mut block = block.clone();
    for _ in 0..random.from_to(1, 4) {
        match random.below(8) {
            0 => block = mutated(random, shape, &block, &OF_STATEMENTS[..]),
            1 | 2 => block = field(random, shape, &block),
            3 => block.remove(random.pick(&FIELDS).as_bytes()),
            4 => changed(random, &mut block, |_, statement| statement.key.push(b'x')),
            5 => changed(random, &mut block, |random, statement| statement.value = value(random)),
            _ => added(random, &mut block),
        }
    }
    block
}

/// A key with a new value; most often one that describes an array, or one of a real.
fn added(random: &mut Random, block: &mut BlockPlan) {
    let key = match random.below(4) {
        0 => random.pick(&KEYS),
        1 => random.pick(&REAL_KEYS),
        _ => random.pick(&FIELDS),
    };
    if !cuts(key.as_bytes()) {
        let value = value(random);
        block.set(key.as_bytes(), &value);
    }
}

/// Other pixels, as many: one changed, all changed, or such that look like statements.
pub fn pixels(random: &mut Random, data: &[u8]) -> Vec<u8> {
    let mut bytes = data.to_vec();
    let number = random.below(data.len());
    match (bytes.get_mut(number), random.below(4)) {
        (Some(byte), 0) => *byte ^= 1 << random.below(8),
        (_, 1) => bytes = random.bytes(data.len()),
        _ => bytes = like_statements(random, data.len()),
    }
    bytes
}

/// Statements in so many bytes, filled with spaces; some after what looks like the end of a header and the start of another.
fn like_statements(random: &mut Random, length: usize) -> Vec<u8> {
    let mut bytes = random.pick(&[&b""[..], b"", b"", b"}\n{"]).to_vec();
    for key in FIELDS.into_iter().chain(REAL_KEYS).chain(["Title", "Note"]) {
        let statement = format!("{key}={};", random.pick(&["1", "2", "SignedByte", "None"]));
        if bytes.len() + statement.len() <= length && random.percent(50) {
            bytes.extend(statement.as_bytes());
        }
    }
    bytes.resize(length, b' ');
    bytes
}
