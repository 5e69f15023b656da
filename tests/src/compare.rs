//! Comparing readers with the second reader on generated cases.

use crate::answer::{answer, Answer, Call};
use crate::generate::{case, Case};
use crate::parallel;
use std::fmt;
use std::ops::Range;
use std::panic::{catch_unwind, AssertUnwindSafe};

/// A reader: what it answers to a call on a file, none to a call that it does not have.
pub type Reader = fn(&[u8], &Call) -> Option<Answer>;

/// Where a reader first differs from the second reader.
#[derive(Clone, Debug, PartialEq)]
pub struct Difference {
    pub seed: u64,
    pub case: usize,
    pub call: Call,
    pub expected: Answer,
    pub given: Answer,
}

/// With all that is needed to run the case alone.
impl fmt::Display for Difference {
    fn fmt(&self, f: &mut fmt::Formatter) -> fmt::Result {
        writeln!(f, "seed {}, case {}, {:?}", self.seed, self.case, self.call)?;
        writeln!(f, "expected {:?}", self.expected)?;
        writeln!(f, "given    {:?}", self.given)?;
        write!(f, "alone    EDF_SEED={} EDF_FIRST={} EDF_CASES=1", self.seed, self.case)
    }
}

/// How many calls of these cases a reader answers as the second reader does, or the difference in the first case that has one.
pub fn compare(reader: Reader, seed: u64, cases: Range<usize>) -> Result<usize, Box<Difference>> {
    let counts = parallel::for_each(cases, |number| compare_case(reader, seed, number, &case(seed, number)));
    counts.into_iter().sum()
}

/// The same for one case.
pub fn compare_case(reader: Reader, seed: u64, number: usize, case: &Case) -> Result<usize, Box<Difference>> {
    let mut count = 0;
    for call in &case.calls {
        if let Some(given) = unless_panicked(|| reader(&case.file, call)) {
            let expected = unless_panicked(|| Some(answer(&case.file, call))).unwrap_or(PANICKED);
            if given != expected || expected == PANICKED {
                return Err(Box::new(Difference { seed, case: number, call: call.clone(), expected, given }));
            }
            count += 1;
        }
    }
    Ok(count)
}

const PANICKED: Answer = Answer::Broken("panicked");

/// What the reader answers; a panic is an answer that no call may give.
pub fn unless_panicked(answer: impl Fn() -> Option<Answer>) -> Option<Answer> {
    catch_unwind(AssertUnwindSafe(answer)).unwrap_or(Some(PANICKED))
}

#[cfg(test)]
mod tests {
    use super::*;

    fn same(file: &[u8], call: &Call) -> Option<Answer> {
        Some(answer(file, call))
    }

    fn wrong_on_find(file: &[u8], call: &Call) -> Option<Answer> {
        match call {
            Call::Find { .. } => Some(Answer::Number(0)),
            _ => same(file, call),
        }
    }

    fn only_opens(file: &[u8], call: &Call) -> Option<Answer> {
        same(file, call).filter(|_| matches!(call, Call::Open { .. }))
    }

    fn panics_on_text(file: &[u8], call: &Call) -> Option<Answer> {
        assert!(!matches!(call, Call::Text { .. }));
        same(file, call)
    }

    #[test]
    fn differences_are_found() {
        let all = compare(same, 3, 0..20).unwrap();
        let opens = compare(only_opens, 3, 0..20).unwrap();
        assert!(opens >= 20 && all > 10 * opens);
        let found = compare(wrong_on_find, 3, 5..20).unwrap_err();
        assert_eq!((found.case, &found.given), (5, &Answer::Number(0)));
        assert!(matches!(found.call, Call::Find { .. }));
        assert_eq!(compare(panics_on_text, 3, 5..20).unwrap_err().given, PANICKED);
    }
}
