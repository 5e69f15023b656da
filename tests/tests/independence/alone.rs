//! A block's own bytes as a file, in kind 1 with or without whitespace around them. In a file without a general header a block alone has the
//! same row but for its start, and is answered alike but for positions. The exception is a block of kind 1 that starts with an EDF_ key: alone
//! it is of kind 2, or refused.

use crate::run::{counted, kind, reached, rows, seed, share, shown, library, Shown};
use edf_tests::independence::{answered_alike, opened, Pair};
use edf_tests::generate::pairs::{drawn, Law};
use edf_tests::parallel;
use edf_tests::reader::opening::cut_anew;

const PAIRS: usize = 2_500;

/// Whether the block starts with an EDF_ key.
fn edf_key_first(pair: &Pair) -> bool {
    let blocks = cut_anew(&pair.one).expect("an accepted file");
    blocks[pair.block].statements.first().is_some_and(|statement| statement.key.starts_with(b"edf_"))
}

/// What comes of the block alone, where it is no longer the same block.
fn otherwise(pair: &Pair) -> Shown {
    let what = match opened(library, &pair.other) {
        None => "refused alone",
        Some(rows) if kind(&rows) == "kind 1" => panic!("of kind 1 alone too"),
        Some(_) => "of kind 2 alone",
    };
    Shown::from([what.to_string()])
}

/// Whether whitespace stands around the block that is alone.
fn around(pair: &Pair) -> Option<String> {
    let row = rows(&pair.other)[0];
    let whole = row.header_length + row.data_length == pair.other.len();
    (!whole).then(|| if row.start > 0 { "whitespace before" } else { "whitespace after only" }.to_string())
}

fn of_pair(number: usize) -> Shown {
    let pair = drawn(Law::Alone, seed(), number);
    if opened(library, &pair.one).is_none() {
        return Shown::from(["dropped".to_string()]);
    }
    let kind = kind(&rows(&pair.one));
    let excepted = kind == "kind 1" && edf_key_first(&pair);
    match answered_alike(library, &pair) {
        Ok(Some(answered)) if !excepted => shown(&answered).into_iter().chain([kind.to_string()]).chain(around(&pair)).collect(),
        Ok(None) if excepted => otherwise(&pair),
        Ok(_) => panic!("seed {}, pair {number}: {kind}, an EDF_ key first: {excepted}", seed()),
        Err(breach) => panic!("seed {}, pair {number}: {breach}", seed()),
    }
}

/// How many of the pairs are to show each of these at least.
const WANTED: [(&str, usize); 13] = [
    ("kept", 2_000), ("kind 1", 800), ("kind 2 without a general header", 800), ("of kind 2 alone", 20), ("refused alone", 60),
    ("Describe 17", 50), ("Describe 18", 120), ("Describe 20", 130), ("Real 27", 600), ("origin own", 1_200), ("origin default", 1_200),
    ("whitespace before", 120), ("whitespace after only", 40),
];

#[test]
fn a_block_alone_is_answered_alike_unless_an_edf_key_makes_it_another() {
    let counts = counted(parallel::for_each(0..share(PAIRS), of_pair));
    reached("alone", PAIRS, &counts, &WANTED);
}
