//! A block that stands elsewhere in another file: all is answered alike, but positions move with the block. Those in a general header stay.

use crate::run::{kind, reached, rows, run, Shown};
use edf_tests::independence::Pair;
use edf_tests::generate::pairs::Law;

const PAIRS: usize = 3_500;
const PAIRS_WITH_GENERAL: usize = 1_500;

fn ways(pair: &Pair) -> Shown {
    let (one, other) = (rows(&pair.one), rows(&pair.other));
    let (from, to) = (one[pair.block].start, other[pair.other_block].start);
    let way = if from < to { "moved on" } else if from > to { "moved back" } else { "not moved" };
    let mut shown = Shown::from([kind(&one).to_string(), way.to_string()]);
    shown.extend((to == 0 && from > 0).then(|| "moved to the start".to_string()));
    shown.extend((to % 512 != from % 512).then(|| "moved by no multiple of 512".to_string()));
    shown
}

/// How many of the pairs are to show each of these at least.
const WANTED: [(&str, usize); 14] = [
    ("kept", 2_800), ("kind 1", 1_000), ("kind 2 without a general header", 1_000), ("moved on", 1_200), ("moved back", 600),
    ("moved to the start", 400), ("moved by no multiple of 512", 1_800), ("Describe 17", 80), ("Describe 18", 120), ("Describe 20", 180),
    ("Find 16", 2_700), ("Real 27", 800), ("origin own", 1_500), ("origin default", 1_500),
];

#[test]
fn a_block_that_is_moved_is_answered_alike_but_for_positions() {
    let counts = run(Law::Moved, PAIRS, ways);
    reached("moved", PAIRS, &counts, &WANTED);
}

const WANTED_WITH_GENERAL: [(&str, usize); 9] = [
    ("kept", 1_400), ("kind 2 with a general header", 1_400), ("moved on", 600), ("moved back", 600), ("found in the own header", 1_400),
    ("found in the general header", 1_200), ("origin own", 1_000), ("origin general", 600), ("origin default", 1_000),
];

#[test]
fn a_block_that_is_moved_behind_a_general_header_is_answered_alike_but_for_its_own_positions() {
    let counts = run(Law::MovedWithGeneral, PAIRS_WITH_GENERAL, ways);
    reached("moved with a general header", PAIRS_WITH_GENERAL, &counts, &WANTED_WITH_GENERAL);
}
