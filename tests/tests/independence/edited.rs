//! Editing one block does not harm the others: a block with the same row and bytes in two accepted files, with the same general header or none
//! in either, is answered alike, positions and errors too.

use crate::run::{kind, reached, rows, run, Shown};
use edf_tests::independence::Pair;
use edf_tests::generate::pairs::Law;
use edf_tests::reader::Row;

const PAIRS: usize = 12_000;

/// The gap before a block and the gap after it.
fn gaps<'a>(file: &'a [u8], rows: &[Row], block: usize) -> [&'a [u8]; 2] {
    let end = |row: &Row| row.start + row.header_length + row.data_length;
    let before = block.checked_sub(1).map_or(0, |number| end(&rows[number]));
    let after = rows.get(block + 1).map_or(file.len(), |row| row.start);
    [&file[before..rows[block].start], &file[end(&rows[block])..after]]
}

/// How the gaps around the block differ.
fn gaps_differ(pair: &Pair, one: &[Row], other: &[Row]) -> Shown {
    let [before, after] = gaps(&pair.one, one, pair.block);
    let [other_before, other_after] = gaps(&pair.other, other, pair.other_block);
    let facts = [
        (before != other_before && before.len() == other_before.len(), "other bytes in the gap before"),
        (before.len() > other_before.len(), "a shorter gap before"),
        (before.len() < other_before.len(), "a longer gap before"),
        (after != other_after, "another gap after"),
        (pair.block > 0 && pair.other_block == 0, "a gap in place of all blocks before"),
        (before == other_before && !before.is_empty(), "the same gap before"),
    ];
    facts.into_iter().filter(|(is, _)| *is).map(|(_, what)| what.to_string()).collect()
}

/// How the pair differs beside the block: where, and whether the block has another number.
fn differences(pair: &Pair) -> Shown {
    let (one, other) = (rows(&pair.one), rows(&pair.other));
    let (row, kind) = (one[pair.block], kind(&one));
    let end = row.start + row.header_length + row.data_length;
    let before = pair.one[..row.start] != pair.other[..row.start];
    let after = pair.one[end..] != pair.other[end..];
    let side = match (before, after) {
        (true, true) => "both sides",
        (true, false) => "before",
        (false, true) => "after",
        (false, false) => panic!("the files are the same"),
    };
    let mut shown = Shown::from([kind.to_string(), format!("edited {side}"), format!("edited {side}, {kind}")]);
    let first = one[0].header_length..one[0].header_length + one[0].data_length;
    let facts = [
        (pair.block != pair.other_block, "another block number"),
        (pair.block != pair.other_block && one[0].kind == 0, "another block number, general header"),
        (row.kind == 0, "the general block itself"),
        (one[0].kind == 0 && row.kind == 1 && pair.one[first.clone()] != pair.other[first], "other data of the general block"),
        (pair.one.len() != pair.other.len(), "files of other lengths"),
        (one.len() != other.len(), "another number of blocks"),
        (one.len() > 8, "more than 8 blocks"),
    ];
    shown.extend(facts.into_iter().filter(|(is, _)| *is).map(|(_, what)| what.to_string()));
    shown.extend(gaps_differ(pair, &one, &other));
    shown
}

/// How many of the pairs are to show each of these at least.
const WANTED: [(&str, usize); 44] = [
    ("kept", 9_500),
    ("kind 1", 3_000), ("kind 2 without a general header", 1_500), ("kind 2 with a general header", 3_000),
    ("edited before", 2_000), ("edited after", 3_500), ("edited both sides", 1_500),
    ("edited before, kind 1", 500), ("edited after, kind 1", 1_500), ("edited both sides, kind 1", 500),
    ("edited before, kind 2 without a general header", 350), ("edited after, kind 2 without a general header", 700),
    ("edited both sides, kind 2 without a general header", 250), ("edited before, kind 2 with a general header", 900),
    ("edited after, kind 2 with a general header", 1_300), ("edited both sides, kind 2 with a general header", 500),
    ("another block number", 500), ("another block number, general header", 200), ("another number of blocks", 2_500),
    ("files of other lengths", 4_000), ("more than 8 blocks", 200), ("the general block itself", 600), ("other data of the general block", 900),
    ("the same gap before", 600), ("other bytes in the gap before", 300), ("a longer gap before", 200), ("a shorter gap before", 20),
    ("a gap in place of all blocks before", 100), ("another gap after", 1_000),
    ("Describe 16", 600), ("Describe 17", 250), ("Describe 18", 500), ("Describe 19", 150), ("Describe 20", 600), ("Describe 21", 50),
    ("Find 16", 9_000), ("WholeNumber 18", 9_000), ("Real 18", 9_000), ("Real 27", 3_000), ("Text 25", 100), ("ReadPixel 23", 4_000),
    ("origin own", 4_000), ("origin general", 800), ("origin default", 4_000),
];

#[test]
fn a_block_is_answered_alike_whatever_the_rest_of_the_file() {
    let counts = run(Law::Edited, PAIRS, differences);
    reached("edited", PAIRS, &counts, &WANTED);
}
