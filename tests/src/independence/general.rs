//! The general header counts: two files that differ in it alone are answered differently on a data block where the block takes a value from
//! it, and only there. So the law of two files needs its condition.

use super::{answers, opened, Breach};
use crate::answer::{Answer, Call};
use crate::compare::Reader;
use crate::generate::pairs::ask::calls_on;
use crate::reader::opening::{cut_anew, Block};
use crate::reader::{part, Span};

/// The keys that an array is described by.
const FIELDS: [&[u8]; 10] = [
    b"datatype", b"byteorder", b"compression", b"dim_1", b"dim_2", b"dim_3", b"dim_4", b"datarasterconfiguration", b"rasterorientation",
    b"datavalueoffset",
];

/// How a call is answered: the same in both files or not, and whether it has its own value beside one that changed.
#[derive(Clone, Debug)]
pub struct Seen {
    pub call: Call,
    pub same: bool,
    pub own_beside_changed: bool,
}

/// Two files with their blocks.
struct Files<'a> {
    files: &'a [Vec<u8>; 2],
    blocks: [Vec<Block>; 2],
}

fn value(block: &Block, key: &[u8]) -> Option<Span> {
    block.statements.iter().find(|statement| statement.key == key).map(|statement| statement.value)
}

impl Files<'_> {
    /// Whether no general header gives the block this folded key: it has the key itself, or the key is an EDF_ key.
    fn own(&self, block: usize, key: &[u8]) -> bool {
        key.starts_with(b"edf_") || value(&self.blocks[0][block], key).is_some()
    }

    /// Whether both general headers have the key at the same place, or neither has it.
    fn same_place(&self, key: &[u8]) -> bool {
        value(&self.blocks[0][0], key) == value(&self.blocks[1][0], key)
    }

    /// Whether both general headers have the same value of the key, or neither has it.
    fn same_value(&self, key: &[u8]) -> bool {
        let bytes = |number: usize| value(&self.blocks[number][0], key).map(|span| part(&self.files[number], span));
        bytes(0) == bytes(1)
    }

    /// Whether the rules say that the call is answered alike on this block, or not alike; none where values that differ may be read alike.
    fn alike(&self, block: usize, call: &Call) -> Option<bool> {
        match call {
            Call::Find { key, .. } => Some(self.own(block, key) || self.same_place(key)),
            Call::Text { key, .. } | Call::WholeNumber { key, .. } | Call::Real { key, .. } => {
                Some(true).filter(|_| self.own(block, key) || self.same_value(key))
            }
            Call::Part { .. } => None,
            _ => Some(true).filter(|_| FIELDS.iter().all(|key| self.own(block, key) || self.same_value(key))),
        }
    }

    fn own_beside_changed(&self, block: usize, call: &Call) -> bool {
        matches!(call, Call::Find { key, .. } if value(&self.blocks[0][block], key).is_some() && !self.same_value(key))
    }

    /// The calls on a data block, or one that is answered as the rules do not say.
    fn of_block(&self, reader: Reader, block: usize) -> Result<Vec<Seen>, Box<Breach>> {
        let [one, other] = self.files;
        let calls = calls_on(one, block, other, block);
        let answered = |file| answers(reader, file, block, &calls).into_iter().filter(|(call, _)| !matches!(call, Call::Part { .. }));
        let mut seen = Vec::new();
        for ((call, expected), (_, given)) in answered(one).zip(answered(other)) {
            let same = expected == given;
            match self.alike(block, &call) {
                Some(true) if !same => return Err(Box::new(Breach { call, expected, given })),
                Some(false) if same => return Err(Box::new(Breach { call, expected: Answer::Broken("another answer"), given })),
                _ => seen.push(Seen { same, own_beside_changed: self.own_beside_changed(block, &call), call }),
            }
        }
        Ok(seen)
    }
}

/// All calls on all data blocks of two files that differ in the general header alone; none where the reader refuses either, or gives other rows.
pub fn general_counts(reader: Reader, files: &[Vec<u8>; 2]) -> Result<Option<Vec<Seen>>, Box<Breach>> {
    let [Some(rows), Some(others)] = [0, 1].map(|number| opened(reader, &files[number])) else { return Ok(None) };
    let [Ok(one), Ok(other)] = [0, 1].map(|number| cut_anew(&files[number])) else { return Ok(None) };
    if rows != others {
        return Ok(None);
    }
    let files = Files { files, blocks: [one, other] };
    let all: Result<Vec<Vec<Seen>>, _> = (1..rows.len()).map(|block| files.of_block(reader, block)).collect();
    all.map(|seen| Some(seen.concat()))
}
