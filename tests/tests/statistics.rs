//! The generated cases reach often: every number of refusal, success of every call, both kinds of file, few and many blocks, every type,
//! every configuration, every class of pixel, every origin of every field, every unit of a real.

use edf_tests::answer::{answer, Answer, Call};
use edf_tests::generate::{case, Case};
use edf_tests::parallel;
use edf_tests::reader::Origin;
use std::collections::{BTreeMap, BTreeSet};

/// The first of the cases that the library is compared on.
const SEED: u64 = 1;
const CASES: usize = 20_000;
const OFTEN: usize = 50;

type Outcome = (&'static str, u8);

/// The seven described fields, in the order of 01's table.
const FIELDS: [&str; 7] =
    ["DataType", "ByteOrder", "Compression", "Dim", "DataRasterConfiguration", "RasterOrientation", "DataValueOffset"];

const ORIGINS: [Origin; 3] = [Origin::Own, Origin::General, Origin::Default];

fn name(call: &Call) -> &'static str {
    match call {
        Call::Open { .. } => "open",
        Call::Find { .. } => "find",
        Call::Part { .. } => "part",
        Call::WholeNumber { .. } => "whole_number",
        Call::Real { .. } => "real",
        Call::Text { .. } => "text",
        Call::Describe { .. } => "describe",
        Call::ReadArray { .. } => "read_array",
        Call::StoredArray { .. } => "stored_array",
        Call::ReadPixel { .. } => "read_pixel",
        Call::Escape { .. } => "escape",
        Call::Unescape { .. } => "unescape",
        Call::Write { .. } => "write",
        Call::List { .. } => "list",
        Call::Print => "print",
    }
}

/// The code of an answer; 0 is success, and 1 the lister's own limit.
fn code(answer: &Answer) -> u8 {
    match answer {
        Answer::Failed { code, .. } => *code,
        Answer::Bytes(bytes) if bytes == b"refused 1 0\n" => 1,
        _ => 0,
    }
}

/// What an answer shows beside its code.
fn features(answer: &Answer) -> Vec<String> {
    match answer {
        Answer::Rows(rows) => vec![format!("kind {}", if rows[0].kind == 1 && rows[0].instance == 0 { 1 } else { 2 })],
        Answer::Description(d) => {
            let configuration = format!("N {} configuration {}", d.n, d.configuration);
            let origins = FIELDS.iter().zip(d.origins).map(|(field, origin)| format!("{field} {origin:?}"));
            [format!("type {}", d.data_type), format!("order {}", d.order), configuration].into_iter().chain(origins).collect()
        }
        Answer::Stored { delivered: Some(_), .. } => vec!["stored as delivered".to_string()],
        Answer::Stored { delivered: None, .. } => vec!["stored otherwise".to_string()],
        Answer::Real { unit, bits } => {
            let zero = Some(format!("{:?} as a real", f64::from_bits(*bits))).filter(|_| bits << 1 == 0);
            zero.into_iter().chain([format!("unit {unit}")]).collect()
        }
        Answer::Unsigned(_) => vec!["unsigned pixel".to_string()],
        Answer::Signed(_) => vec!["signed pixel".to_string()],
        Answer::Float32(_) => vec!["32-bit float pixel".to_string()],
        Answer::Float64(_) => vec!["64-bit float pixel".to_string()],
        _ => vec![],
    }
}

/// All features, with the least number of cases that are to show each.
fn all_features() -> Vec<(String, usize)> {
    let few = ["kind 1", "kind 2", "order 1", "order 2", "stored as delivered", "stored otherwise", "unsigned pixel", "signed pixel", "32-bit float pixel", "64-bit float pixel"];
    let mut all: Vec<(String, usize)> = few.map(|feature| (feature.to_string(), 10 * OFTEN)).to_vec();
    all.extend((1..=10).map(|code| (format!("type {code}"), 4 * OFTEN)));
    all.extend((0..=3).map(|unit| (format!("unit {unit}"), 10 * OFTEN)));
    all.extend(["0.0 as a real", "-0.0 as a real"].map(|zero| (zero.to_string(), OFTEN)));
    all.extend(FIELDS.iter().flat_map(|field| ORIGINS.map(|origin| (format!("{field} {origin:?}"), 4 * OFTEN))));
    for (n, configurations) in [(1, 2), (2, 8), (3, 48)] {
        all.extend((1..=configurations).map(|number| (format!("N {n} configuration {number}"), OFTEN / 5)));
    }
    all
}

/// What one case shows.
struct Seen {
    outcomes: BTreeSet<Outcome>,
    features: BTreeSet<String>,
    /// The blocks of a file that opens.
    blocks: Option<usize>,
    calls: usize,
    bytes: usize,
}

fn seen(case: &Case) -> Seen {
    let answers: Vec<(&Call, Answer)> = case.calls.iter().map(|call| (call, answer(&case.file, call))).collect();
    let blocks = answers.iter().find_map(|(_, answer)| match answer {
        Answer::Rows(rows) => Some(rows.len()),
        _ => None,
    });
    let outcomes = answers.iter().map(|(call, answer)| (name(call), code(answer))).collect();
    let features = answers.iter().flat_map(|(_, answer)| features(answer)).collect();
    Seen { outcomes, features, blocks, calls: case.calls.len(), bytes: case.file.len() }
}

/// How many cases show each of some things.
fn counts<T: Ord>(things: impl Iterator<Item = T>) -> BTreeMap<T, usize> {
    let mut counts = BTreeMap::new();
    things.for_each(|thing| *counts.entry(thing).or_default() += 1);
    counts
}

fn print_by_call(counts: &BTreeMap<Outcome, usize>) {
    let names: BTreeSet<&str> = counts.keys().map(|(name, _)| *name).collect();
    for name in names {
        let of_call = counts.iter().filter(|((other, _), _)| *other == name);
        let text: Vec<String> = of_call.map(|((_, code), count)| format!("{code}:{count}")).collect();
        println!("{name:13} {}", text.join(" "));
    }
}

#[test]
fn everything_is_reached_often() {
    let all = parallel::for_each(0..CASES, |number| seen(&case(SEED, number)));
    check_outcomes(&all);
    check_blocks(&all);
    check_features(&all);
}

fn check_outcomes(all: &[Seen]) {
    let sum = |count: fn(&Seen) -> usize| all.iter().map(count).sum::<usize>();
    println!("seed {SEED}, {CASES} cases, {} calls, {} bytes of files", sum(|s| s.calls), sum(|s| s.bytes));
    let by_call = counts(all.iter().flat_map(|seen| seen.outcomes.iter().copied()));
    print_by_call(&by_call);
    let codes = |seen: &Seen| seen.outcomes.iter().map(|(_, code)| *code).collect::<BTreeSet<u8>>();
    let by_code = counts(all.iter().flat_map(codes));
    println!("by code {by_code:?}");
    for code in (0..=25).chain([27]) {
        assert!(by_code.get(&code).is_some_and(|&count| count >= OFTEN), "code {code}");
    }
    for code in [16, 18, 27] {
        assert!(by_call[&("real", code)] >= 20 * OFTEN, "real gives {code}");
    }
    for call in ["open", "find", "whole_number", "real", "text", "describe", "read_array", "read_pixel", "escape", "unescape", "write", "list"] {
        assert!(by_call[&(call, 0)] >= 20 * OFTEN, "{call} succeeds");
    }
}

fn check_blocks(all: &[Seen]) {
    let by_blocks = counts(all.iter().filter_map(|seen| seen.blocks));
    for (least, most) in [(1, 1), (2, 4), (5, 12), (13, 127), (128, 252), (253, 255), (256, 256)] {
        let count: usize = by_blocks.range(least..=most).map(|(_, count)| count).sum();
        println!("{least} to {most} blocks: {count} cases");
        assert!(count >= 10, "{least} to {most} blocks: {count}");
    }
}

fn check_features(all: &[Seen]) {
    let by_feature = counts(all.iter().flat_map(|seen| seen.features.iter().cloned()));
    println!("by feature {by_feature:?}");
    for (feature, least) in all_features() {
        assert!(by_feature.get(&feature).is_some_and(|&count| count >= least), "{feature}");
    }
}

#[test]
fn the_same_seed_gives_the_same_cases() {
    let draw = |seed: u64| (0..50).map(|number| format!("{:?}", case(seed, number))).collect::<BTreeSet<String>>();
    assert_eq!(draw(5), draw(5));
    assert_eq!(draw(5).len(), 50);
    assert!(draw(5).is_disjoint(&draw(6)));
}
