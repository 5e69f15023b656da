//! Concatenated files of kind 1 are one file: the rows of the first, then those of the second, moved; every block is answered as before.
//! Whitespace at the seam is in no row.

use crate::run::{counted, library, reached, rows, seed, share, shown, Shown};
use edf_tests::independence::{concatenated, opened};
use edf_tests::generate::pairs::two_of_kind_1;
use edf_tests::parallel;

const PAIRS: usize = 2_000;

fn of_pair(number: usize) -> Shown {
    let [one, other] = two_of_kind_1(seed(), number);
    if opened(library, &one).is_none() || opened(library, &other).is_none() {
        return Shown::from(["dropped".to_string()]);
    }
    match concatenated(library, &one, &other) {
        Ok(Some(answered)) => shown(&answered).into_iter().chain(seams(&one, &other)).collect(),
        Ok(None) => panic!("seed {}, pair {number}: no files of kind 1, or too many blocks", seed()),
        Err(breach) => panic!("seed {}, pair {number}: {breach}", seed()),
    }
}

fn seams(one: &[u8], other: &[u8]) -> Shown {
    let (first, second) = (rows(one), rows(other));
    let count = first.len() + second.len();
    let end = first.last().map_or(0, |row| row.start + row.header_length + row.data_length);
    let facts = [
        (end == one.len() && second[0].start == 0, "no whitespace at the seam"),
        (end < one.len() && second[0].start == 0, "whitespace before the seam"),
        (end == one.len() && second[0].start > 0, "whitespace after the seam"),
        (end < one.len() && second[0].start > 0, "whitespace on both sides of the seam"),
        (first[0].start > 0, "whitespace before the first block"),
        (one.len() % 512 != 0, "a seam at no multiple of 512"),
        (one.len() >= 65_536, "a seam past 65,536 bytes"),
        (count == 256, "256 blocks"),
    ];
    facts.into_iter().filter(|(is, _)| *is).map(|(_, what)| what.to_string()).collect()
}

/// How many of the pairs are to show each of these at least.
const WANTED: [(&str, usize); 16] = [
    ("kept", 1_900), ("a seam at no multiple of 512", 1_500), ("a seam past 65,536 bytes", 20), ("256 blocks", 4), ("Describe 17", 30),
    ("Describe 18", 80), ("Describe 20", 60), ("Find 16", 1_900), ("Real 27", 1_000), ("origin own", 1_500), ("origin default", 1_500),
    ("no whitespace at the seam", 150), ("whitespace before the seam", 200), ("whitespace after the seam", 200),
    ("whitespace on both sides of the seam", 300), ("whitespace before the first block", 500),
];

#[test]
fn files_of_kind_1_concatenated_are_one_file() {
    let counts = counted(parallel::for_each(0..share(PAIRS), of_pair));
    reached("joined", PAIRS, &counts, &WANTED);
}
