//! The verified library answers generated cases as the second reader does.
//! EDF_SEED, EDF_FIRST and EDF_CASES say which: so many cases of a seed, from the first on.

use edf_tests::answer::Answer;
use edf_tests::compare::compare;
use edf_tests::library;
use std::io::Write;
use std::time::Instant;

/// After so many cases a line is printed.
const PORTION: usize = 50_000;

fn number(name: &str, default: usize) -> usize {
    std::env::var(name).map_or(default, |text| text.parse().expect(name))
}

/// Prints a line in every log, also where the output of tests is captured.
fn tell(line: String) {
    writeln!(std::io::stderr(), "{line}").expect("stderr");
}

#[test]
fn generated_cases_are_answered_alike() {
    let (seed, first, cases) = (number("EDF_SEED", 1), number("EDF_FIRST", 0), number("EDF_CASES", 200_000));
    let (start, end) = (Instant::now(), first + cases);
    let mut calls = 0;
    for from in (first..end).step_by(PORTION) {
        let to = end.min(from + PORTION);
        calls += compare(library::answer, seed as u64, from..to).unwrap_or_else(|difference| panic!("{difference}"));
        let seconds = start.elapsed().as_secs();
        tell(format!("seed {seed}, cases {first} to {}: {calls} calls answered alike, {seconds} s", to - 1));
    }
    assert!(calls >= cases);
}

/// A table of 255 rows and 6 numbers is too small; numbers past 256 rows stay as they were.
#[test]
fn tables_that_are_no_whole_rows() {
    let mut header = vec![b' '; 512];
    header[0] = b'{';
    header[510..].copy_from_slice(b"}\n");
    for numbers in [0, 1, 6, 7, 7 * 255, 7 * 256 - 1] {
        assert_eq!(library::open_numbers(&header, numbers), Answer::Failed { code: 2, position: 0 });
    }
    for numbers in [7 * 256, 7 * 256 + 1, 7 * 256 + 6, 7 * 257] {
        assert!(matches!(library::open_numbers(&header, numbers), Answer::Rows(rows) if rows.len() == 1));
    }
}
