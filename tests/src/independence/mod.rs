//! The laws of independent blocks (02, No. 3), asked of any reader: a block that two accepted files share is answered alike in both, and
//! concatenated files of kind 1 are one file. Where a law's condition does not hold for the reader, the law asks nothing.

pub mod general;

use crate::answer::{Answer, Call};
use crate::compare::{unless_panicked, Reader};
use crate::generate::pairs::ask::calls_on;
use crate::reader::opening::{LONGEST_FILE, MOST_BLOCKS};
use crate::reader::Row;
use std::fmt;

/// A block that stands in two files, by its number in either.
#[derive(Clone, Debug)]
pub struct Pair {
    pub one: Vec<u8>,
    pub other: Vec<u8>,
    pub block: usize,
    pub other_block: usize,
}

/// Calls that a reader answered, in both files alike.
pub type Answered = Vec<(Call, Answer)>;

/// A call that is answered in the second file in another way than in the first: what the first file says, and what was given.
#[derive(Clone, Debug, PartialEq)]
pub struct Breach {
    pub call: Call,
    pub expected: Answer,
    pub given: Answer,
}

impl fmt::Display for Breach {
    fn fmt(&self, f: &mut fmt::Formatter) -> fmt::Result {
        write!(f, "{:?}\nexpected {:?}\ngiven    {:?}", self.call, self.expected, self.given)
    }
}

/// The rows of a file that the reader accepts.
pub fn opened(reader: Reader, file: &[u8]) -> Option<Vec<Row>> {
    match unless_panicked(|| reader(file, &Call::Open { rows: MOST_BLOCKS })) {
        Some(Answer::Rows(rows)) => Some(rows),
        _ => None,
    }
}

/// The bytes of a block.
pub fn bytes_of<'a>(file: &'a [u8], row: &Row) -> Option<&'a [u8]> {
    file.get(row.start..row.start.checked_add(row.header_length)?.checked_add(row.data_length)?)
}

/// The general header's bytes, without those after it; none in a file without a general header.
pub fn general_header<'a>(file: &'a [u8], rows: &[Row]) -> Option<&'a [u8]> {
    let first = rows.first().filter(|row| row.kind == 0)?;
    file.get(first.start..first.start.checked_add(first.header_length)?)
}

/// Whether the rows are those of a file of kind 1: its blocks have no identity.
pub fn of_kind_1(rows: &[Row]) -> bool {
    rows.iter().all(|row| row.kind == 1 && row.instance == 0)
}

/// How positions move from the first file to the second: those from an offset on, by so much.
#[derive(Clone, Copy, Debug, PartialEq)]
pub struct Shift {
    pub from: usize,
    pub by: isize,
}

/// How positions move, where the law's condition holds: both files are accepted, the block has the same row but for its start and the same
/// bytes, and the general headers are the same, or there is none. What stands in a general header stays.
pub fn shift(reader: Reader, pair: &Pair) -> Option<Shift> {
    let (one, other) = (opened(reader, &pair.one)?, opened(reader, &pair.other)?);
    let (row, moved) = (one.get(pair.block)?, other.get(pair.other_block)?);
    let same_row = Row { start: 0, ..*row } == Row { start: 0, ..*moved };
    let same_bytes = bytes_of(&pair.one, row)? == bytes_of(&pair.other, moved)?;
    let (header, same) = (general_header(&pair.one, &one), general_header(&pair.other, &other));
    let from = if header.is_none() { 0 } else { row.start };
    let by = moved.start as isize - row.start as isize;
    (same_row && same_bytes && header == same).then_some(Shift { from, by })
}

/// The law of two files: all that is answered on the block is the same; positions move with the block. None where the condition does not hold.
pub fn answered_alike(reader: Reader, pair: &Pair) -> Result<Option<Answered>, Box<Breach>> {
    let Some(shift) = shift(reader, pair) else { return Ok(None) };
    let calls = calls_on(&pair.one, pair.block, &pair.other, pair.other_block);
    let one = answers(reader, &pair.one, pair.block, &calls);
    same(one, answers(reader, &pair.other, pair.other_block, &calls), shift).map(Some)
}

/// The law of concatenated files: two accepted files of kind 1, within the limits, are one file, whose table is that of the first and then that of
/// the second, its starts moved by the first file's length; and a block is answered as in its own file. None where the condition does not hold.
pub fn concatenated(reader: Reader, one: &[u8], other: &[u8]) -> Result<Option<Answered>, Box<Breach>> {
    let (Some(first), Some(second)) = (opened(reader, one), opened(reader, other)) else { return Ok(None) };
    let in_limits = one.len() + other.len() <= LONGEST_FILE && first.len() + second.len() <= MOST_BLOCKS;
    if !in_limits || !of_kind_1(&first) || !of_kind_1(&second) {
        return Ok(None);
    }
    let file = [one, other].concat();
    let mut answered = vec![rows_joined(reader, &file, &joined(&first, &second, one.len()))?];
    for number in asked(first.len(), second.len()) {
        let (part, block, shift) = match number.checked_sub(first.len()) {
            None => (one, number, Shift { from: 0, by: 0 }),
            Some(block) => (other, block, Shift { from: 0, by: one.len() as isize }),
        };
        let calls = calls_on(part, block, &file, number);
        answered.extend(same(answers(reader, part, block, &calls), answers(reader, &file, number, &calls), shift)?);
    }
    Ok(Some(answered))
}

/// The blocks that are asked about: all of a few; of many, those at the ends and at the seam.
fn asked(first: usize, second: usize) -> Vec<usize> {
    let count = first + second;
    (0..count).filter(|number| count <= 16 || [0, 1, first - 1, first, first + 1, count - 1].contains(number)).collect()
}

/// The first list of rows joined to the second, the starts of the second moved.
pub fn joined(first: &[Row], second: &[Row], length: usize) -> Vec<Row> {
    first.iter().copied().chain(second.iter().map(|row| Row { start: row.start + length, ..*row })).collect()
}

fn rows_joined(reader: Reader, file: &[u8], rows: &[Row]) -> Result<(Call, Answer), Box<Breach>> {
    let (call, expected) = (Call::Open { rows: MOST_BLOCKS }, Answer::Rows(rows.to_vec()));
    let given = unless_panicked(|| reader(file, &call)).unwrap_or(Answer::Broken("no answer"));
    if given == expected { Ok((call, given)) } else { Err(Box::new(Breach { call, expected, given })) }
}

/// What the reader answers to the calls, on this block; after a span that is found, the part of the file there.
pub fn answers(reader: Reader, file: &[u8], block: usize, calls: &[Call]) -> Answered {
    let mut answered = Vec::new();
    let ask = |call: Call| unless_panicked(|| reader(file, &call)).map(|answer| (call, answer));
    for call in calls {
        let (call, answer) = ask(on_block(call, block)).unwrap_or((call.clone(), Answer::Broken("no answer")));
        let part = match answer {
            Answer::Place { start, length } => ask(Call::Part { start, length }),
            _ => None,
        };
        answered.push((call, answer));
        answered.extend(part);
    }
    answered
}

/// The same call on another block.
fn on_block(call: &Call, number: usize) -> Call {
    let mut call = call.clone();
    match &mut call {
        Call::Find { block, .. } | Call::WholeNumber { block, .. } | Call::Real { block, .. } | Call::Text { block, .. } => *block = number,
        Call::Describe { block } | Call::ReadArray { block, .. } | Call::StoredArray { block, .. } => *block = number,
        Call::ReadPixel { block, .. } => *block = number,
        _ => (),
    }
    call
}

/// The answers of the first file, if those of the second are the same once positions are moved.
fn same(one: Answered, other: Answered, shift: Shift) -> Result<Answered, Box<Breach>> {
    for ((_, expected), (call, given)) in one.iter().zip(&other) {
        let expected = moved(expected, shift);
        if *given != expected || matches!(expected, Answer::Broken(_)) {
            return Err(Box::new(Breach { call: call.clone(), expected, given: given.clone() }));
        }
    }
    assert_eq!(one.len(), other.len());
    Ok(one)
}

/// An answer with its position in the file moved.
fn moved(answer: &Answer, shift: Shift) -> Answer {
    let mut answer = answer.clone();
    match &mut answer {
        Answer::Place { start, .. } | Answer::Stored { start, .. } if *start >= shift.from => *start = start.wrapping_add_signed(shift.by),
        _ => (),
    }
    answer
}

#[cfg(test)]
mod tests {
    use super::*;
    use crate::answer::answer;
    use crate::generate::pairs::{pair, two_of_kind_1, Law, SECOND};

    /// How many of the first pairs keep the law for this reader, break it, and ask nothing.
    fn outcomes(reader: Reader, law: Law) -> [usize; 3] {
        let all = (0..60).filter_map(|number| pair(law, 3, number)).map(|pair| answered_alike(reader, &pair));
        counted(all)
    }

    fn outcomes_joined(reader: Reader) -> [usize; 3] {
        counted((0..20).map(|number| two_of_kind_1(3, number)).map(|[one, other]| concatenated(reader, &one, &other)))
    }

    fn counted(all: impl Iterator<Item = Result<Option<Answered>, Box<Breach>>>) -> [usize; 3] {
        let mut counts = [0; 3];
        all.for_each(|outcome| counts[outcome.map_or(1, |answered| if answered.is_some() { 0 } else { 2 })] += 1);
        counts
    }

    /// A keyword that is not found is sought in the block before.
    fn also_before(file: &[u8], call: &Call) -> Option<Answer> {
        match (call, answer(file, call)) {
            (Call::Find { block, key }, Answer::Failed { code: 16, .. }) if *block > 0 => {
                Some(answer(file, &Call::Find { block: block - 1, key: key.clone() }))
            }
            (_, answer) => Some(answer),
        }
    }

    /// Positions of values start anew after 1,024 bytes.
    fn wrapped(file: &[u8], call: &Call) -> Option<Answer> {
        Some(match answer(file, call) {
            Answer::Place { start, length } => Answer::Place { start: start % 1_024, length },
            answer => answer,
        })
    }

    /// No row starts after 1,024 bytes.
    fn near(file: &[u8], call: &Call) -> Option<Answer> {
        Some(match answer(file, call) {
            Answer::Rows(rows) => Answer::Rows(rows.iter().map(|row| Row { start: row.start.min(1_024), ..*row }).collect()),
            answer => answer,
        })
    }

    /// No file is accepted.
    fn refusing(_: &[u8], _: &Call) -> Option<Answer> {
        Some(Answer::Failed { code: 3, position: 0 })
    }

    #[test]
    fn the_laws_hold_of_the_second_reader() {
        for law in [Law::Edited, Law::Moved, Law::MovedWithGeneral, Law::Alone] {
            let [kept, broken, unasked] = outcomes(SECOND, law);
            assert!(kept >= 30 && broken == 0 && unasked == 0, "{law:?}: {kept}, {broken}, {unasked}");
        }
        assert_eq!(outcomes_joined(SECOND), [20, 0, 0]);
    }

    #[test]
    fn wrong_readers_break_the_laws() {
        assert!(outcomes(also_before, Law::Edited)[1] > 2);
        assert!(outcomes(also_before, Law::Moved)[1] > 2);
        assert!(outcomes(wrapped, Law::Moved)[1] > 2);
        assert!(outcomes(wrapped, Law::MovedWithGeneral)[1] > 2);
        assert!(outcomes_joined(also_before)[1] > 2);
        assert!(outcomes(wrapped, Law::Alone)[1] > 2);
        assert!(outcomes_joined(near)[1] > 2);
    }

    #[test]
    fn the_laws_ask_nothing_of_a_reader_that_refuses() {
        let [kept, broken, unasked] = outcomes(refusing, Law::Edited);
        assert!(kept == 0 && broken == 0 && unasked >= 40, "{kept}, {broken}, {unasked}");
        assert_eq!(outcomes_joined(refusing), [0, 0, 20]);
    }
}
