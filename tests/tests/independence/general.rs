//! The general header counts: two files that differ in it alone are answered differently on a data block where the block takes a value from
//! it, and only there. So the law of two files needs its condition.

use crate::run::{counted, library, name, reached, seed, share, Shown};
use edf_tests::independence::general::{general_counts, Seen};
use edf_tests::generate::pairs::two_general_headers;
use edf_tests::parallel;

const PAIRS: usize = 3_000;

fn of_call(seen: &Seen) -> Option<String> {
    match seen {
        Seen { same: false, call, .. } => Some(format!("{} differs", name(call))),
        Seen { own_beside_changed: true, .. } => Some("own value beside a changed one".to_string()),
        _ => None,
    }
}

fn of_pair(number: usize) -> Shown {
    let dropped = Shown::from(["dropped".to_string()]);
    let Some(files) = two_general_headers(seed(), number) else { return dropped };
    match general_counts(library, &files) {
        Ok(None) => dropped,
        Ok(Some(seen)) => seen.iter().filter_map(of_call).chain(["kept".to_string()]).collect(),
        Err(breach) => panic!("seed {}, pair {number}: {breach}", seed()),
    }
}

/// How many of the pairs are to show each of these at least.
const WANTED: [(&str, usize); 10] = [
    ("kept", 1_500), ("Find differs", 1_000), ("Text differs", 900), ("WholeNumber differs", 800), ("Real differs", 800),
    ("Describe differs", 800), ("StoredArray differs", 800), ("ReadArray differs", 700), ("ReadPixel differs", 700),
    ("own value beside a changed one", 1_000),
];

#[test]
fn a_changed_general_header_changes_just_what_a_block_takes_from_it() {
    let counts = counted(parallel::for_each(0..share(PAIRS), of_pair));
    reached("general header", PAIRS, &counts, &WANTED);
}
