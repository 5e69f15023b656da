//! Running a law over generated pairs, and what these pairs show.

use edf_tests::answer::{answer, Answer, Call};
use edf_tests::independence::{answered_alike, opened, Answered, Pair};
use edf_tests::generate::pairs::{pair, Law};
use edf_tests::parallel;
use edf_tests::reader::{Origin, Row};
use std::collections::{BTreeMap, BTreeSet};

/// How many pairs all tests draw together unless EDF_PAIRS says otherwise; each test has its share.
const ALL: usize = 25_500;

/// What a pair shows.
pub type Shown = BTreeSet<String>;

/// How many pairs show each thing.
pub type Counts = BTreeMap<String, usize>;

fn number(name: &str, default: usize) -> usize {
    std::env::var(name).map_or(default, |text| text.parse().expect(name))
}

pub fn seed() -> u64 {
    number("EDF_SEED", 1) as u64
}

/// So many of all pairs.
pub fn share(pairs: usize) -> usize {
    (pairs * number("EDF_PAIRS", ALL)).div_ceil(ALL)
}

/// The library's answer; the second reader gives the same.
pub fn library(file: &[u8], call: &Call) -> Option<Answer> {
    let given = edf_tests::library::answer(file, call);
    assert_eq!(given, Some(answer(file, call)), "{call:?}");
    given
}

/// The rows of a file that is accepted.
pub fn rows(file: &[u8]) -> Vec<Row> {
    opened(library, file).expect("an accepted file")
}

/// Draws so many pairs, asks the law of each that is of use, and counts what `also` and the answers show.
pub fn run(law: Law, pairs: usize, also: fn(&Pair) -> Shown) -> Counts {
    let of_pair = |number| match pair(law, seed(), number) {
        None => Shown::from(["dropped".to_string()]),
        Some(pair) => match answered_alike(library, &pair) {
            Ok(Some(answered)) => {
                let headers = spans_in_headers(&pair, &answered);
                also(&pair).into_iter().chain(shown(&answered)).chain(headers).collect()
            }
            Ok(None) => panic!("{law:?}, seed {}, pair {number}: the library refuses a file, or gives another row", seed()),
            Err(breach) => panic!("{law:?}, seed {}, pair {number}: {breach}", seed()),
        },
    };
    counted(parallel::for_each(0..share(pairs), of_pair))
}

/// What is found stands in the block's own header or in the general one, so never in another block: in which of them something is.
fn spans_in_headers(pair: &Pair, answered: &Answered) -> Shown {
    let rows = rows(&pair.one);
    let mut shown = Shown::new();
    let general = rows.first().filter(|row| row.kind == 0);
    let headers: Vec<_> = general.into_iter().chain([&rows[pair.block]]).map(|row| row.start..row.start + row.header_length).collect();
    for (call, answer) in answered {
        if let Answer::Place { start, length } = answer {
            assert!(headers.iter().any(|header| header.contains(start) && start + length < header.end), "{call:?}: {answer:?}");
            let own = rows[pair.block].start <= *start;
            shown.insert(if own { "found in the own header" } else { "found in the general header" }.to_string());
        }
    }
    shown
}

pub fn counted(all: Vec<Shown>) -> Counts {
    let mut counts = Counts::new();
    all.into_iter().flatten().for_each(|what| *counts.entry(what).or_default() += 1);
    counts
}

/// Prints the counts; each of these is to be shown by so many of the pairs at least.
pub fn reached(what: &str, pairs: usize, counts: &Counts, wanted: &[(&str, usize)]) {
    println!("{what}, seed {}, {} pairs: {counts:#?}", seed(), share(pairs));
    for (name, least) in wanted {
        let count = counts.get(*name).copied().unwrap_or(0);
        assert!(count * pairs >= least * share(pairs), "{what}: {name}: {count}");
    }
}

/// The name of a call.
pub fn name(call: &Call) -> String {
    format!("{call:?}").split([' ', '{']).next().unwrap_or_default().to_string()
}

/// The calls that succeed, the codes of those that do not, and the origins.
pub fn shown(answered: &Answered) -> Shown {
    let mut shown = Shown::from(["kept".to_string()]);
    for (call, answer) in answered {
        let name = name(call);
        match answer {
            Answer::Failed { code, .. } => shown.extend([format!("code {code}"), format!("{name} {code}")]),
            Answer::Description(d) => shown.extend(d.origins.iter().map(|origin| of_origin(*origin).to_string())),
            _ => drop(shown.insert(format!("{name} answered"))),
        }
    }
    shown
}

fn of_origin(origin: Origin) -> &'static str {
    match origin {
        Origin::Own => "origin own",
        Origin::General => "origin general",
        Origin::Default => "origin default",
    }
}

/// The kind of a file, by its rows.
pub fn kind(rows: &[Row]) -> &'static str {
    match rows[0] {
        Row { kind: 0, .. } => "kind 2 with a general header",
        Row { instance: 0, .. } => "kind 1",
        _ => "kind 2 without a general header",
    }
}
