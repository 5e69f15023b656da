//! Letters are folded by the ends of the alphabet (02, No. 5): every byte in a key beside every other. Library and second reader answer alike, and
//! so often as 01 has it. 117 bytes from 1 to 127 may stand in a key and are not white: all but six whites, both braces, `;` and `=`.

use edf_tests::answer::{answer, Answer};
use edf_tests::compare::compare_case;
use edf_tests::generate::letters::{case, CASES};
use edf_tests::library;
use edf_tests::parallel;

/// A byte that may stand in a key is the same as itself; a letter is also the same as its other form.
const SAME: usize = 117 + 2 * 26;
/// A white vanishes from a key, so that any white in its place makes the same key.
const WHITES: usize = 6 * 6;

fn is_found(answer: &Answer) -> bool {
    matches!(answer, Answer::Place { .. })
}

fn is_twice(answer: &Answer) -> bool {
    matches!(answer, Answer::Failed { code: 8, .. })
}

fn is_of_kind_2(answer: &Answer) -> bool {
    matches!(answer, Answer::Rows(rows) if rows[0].instance == 1)
}

#[test]
fn every_byte_is_folded_alike() {
    let calls = parallel::for_each(0..CASES, |number| {
        compare_case(library::answer, 0, number, &case(number)).unwrap_or_else(|difference| panic!("letters: {difference}"))
    });
    assert_eq!(calls.iter().sum::<usize>(), 3 * 256 * 256 + 4 * 256 + 256 * 256);
}

#[test]
fn only_letters_have_two_forms() {
    let counts = parallel::for_each(0..CASES, |number| {
        let case = case(number);
        let answers: Vec<Answer> = case.calls.iter().map(|call| answer(&case.file, call)).collect();
        [is_found, is_of_kind_2, is_twice].map(|is| answers.iter().filter(|answer| is(answer)).count())
    });
    let sum = |which: usize| counts.iter().map(|count| count[which]).sum::<usize>();
    // `kk=` in the header is the key `kk`, which is sought with any white behind it.
    assert_eq!(sum(0), 3 * (SAME + WHITES) + 6);
    // `E`, `D` and `F` in both forms, and `_`.
    assert_eq!(sum(1), 2 + 2 + 2 + 1);
    // `k=k=1` twice is the key `k` twice.
    assert_eq!(sum(2), SAME + WHITES + 1);
}
