//! Headers at both sides of 65,536 bytes, and 255 to 257 blocks: 02, No. 4. A file is a prefix, so many copies of a unit, and a suffix.

use crate::columns::{lines, unescaped};
use edf_tests::answer::{Answer, Call};
use edf_tests::both::both;
use edf_tests::told::told;

/// Lines of prefix, unit, times, suffix, and the answer: `ok` with the rows or their number, or `error` with code and position.
const TABLE: &str = include_str!("long_headers.tsv");

/// The answer of a line, as a line of text.
fn expected(answer: &str) -> String {
    match answer.split_once(' ') {
        Some(("error", error)) => format!("refused {error}"),
        Some(("ok", rows)) => rows.split(' ').map(|row| row.replace(',', " ")).collect::<Vec<_>>().join(" | "),
        _ => panic!("{answer}"),
    }
}

/// What is given; where the line tells only how many rows there are, their number.
fn given(file: &[u8], answer: &str) -> String {
    match both(file, &Call::Open { rows: 256 }) {
        Answer::Rows(rows) if answer.ends_with(" rows") => format!("{} | rows", rows.len()),
        answer => told(&answer),
    }
}

#[test]
fn every_line_of_the_table() {
    let lines = lines(TABLE);
    assert_eq!(lines.len(), 54);
    for line in lines {
        let [prefix, unit, times, suffix, answer] = line.split('\t').collect::<Vec<_>>()[..] else { panic!("{line}") };
        let [prefix, unit, suffix] = [prefix, unit, suffix].map(unescaped);
        let file = [prefix, unit.repeat(times.parse().unwrap()), suffix].concat();
        assert_eq!(given(&file, answer), expected(answer), "{line}");
    }
}
