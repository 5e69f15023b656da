//! Where the generated cases find faults that were planted in copies of the second reader, and which laws find them without another reader.

use crate::answer::{Answer, Call};
use crate::independence::general::general_counts;
use crate::independence::{concatenated, answered_alike, Breach};
use crate::compare::{compare_case, Difference, Reader};
use crate::generate::case;
use crate::generate::pairs::{pair, two_general_headers, two_of_kind_1, Law};
use crate::parallel;

/// Files up to this length are short, and so many cases are tried on short files first.
const SHORT: usize = 4_000;
const FIRST: usize = 300;

/// A fault: file, old, new.
type Title<'a> = (&'a str, &'a str, &'a str);

/// Prints a table of faults and where each is found; whether all are.
pub fn print_found(titles: &[Title], readers: &[Reader], seed: u64, cases: usize) -> bool {
    std::panic::set_hook(Box::new(|_| ()));
    let found = parallel::for_each(0..readers.len(), |number| first_difference(readers[number], seed, cases));
    for (number, ((file, old, new), difference)) in titles.iter().zip(&found).enumerate() {
        println!("{number:3} {file:12} {:34} {old}  =>  {new}", place(difference.as_deref()));
    }
    let count = found.iter().flatten().count();
    println!("seed {seed}, at most {cases} cases: {count} of {} faults found", found.len());
    count == found.len()
}

/// Asks a law of a reader, on the files with a number: the breach, if there is one.
type Question = fn(Reader, u64, usize) -> Option<Box<Breach>>;

/// The laws of independent blocks.
const LAWS: [(&str, Question); 6] = [
    ("edited", |reader, seed, number| answered_alike(reader, &pair(Law::Edited, seed, number)?).err()),
    ("moved", |reader, seed, number| answered_alike(reader, &pair(Law::Moved, seed, number)?).err()),
    ("behind", |reader, seed, number| answered_alike(reader, &pair(Law::MovedWithGeneral, seed, number)?).err()),
    ("alone", |reader, seed, number| answered_alike(reader, &pair(Law::Alone, seed, number)?).err()),
    ("joined", |reader, seed, number| {
        let [one, other] = two_of_kind_1(seed, number);
        concatenated(reader, &one, &other).err()
    }),
    ("general", |reader, seed, number| general_counts(reader, &two_general_headers(seed, number)?).err()),
];

/// Prints a table of faults and the laws that each breaks, with the first pair that shows it; whether each breaks one.
pub fn print_broken(titles: &[Title], readers: &[Reader], seed: u64, pairs: usize) -> bool {
    std::panic::set_hook(Box::new(|_| ()));
    let broken = parallel::for_each(0..readers.len(), |number| laws_broken(readers[number], seed, pairs));
    for (number, ((file, old, new), laws)) in titles.iter().zip(&broken).enumerate() {
        let laws = if laws.is_empty() { "NOT FOUND".to_string() } else { laws.join(", ") };
        println!("{number:3} {file:12} {laws}\n                 {old}  =>  {new}");
    }
    let count = broken.iter().filter(|laws| !laws.is_empty()).count();
    println!("seed {seed}, at most {pairs} pairs of each law: {count} of {} faults found by a law alone", broken.len());
    count == broken.len()
}

/// The laws that a reader breaks: name, pair, call, and both codes.
fn laws_broken(reader: Reader, seed: u64, pairs: usize) -> Vec<String> {
    let first = |(name, law): &(&str, Question)| {
        let (number, breach) = (0..pairs).find_map(|number| Some((number, law(reader, seed, number)?)))?;
        Some(format!("{name} {number} {} {} {}", call_name(&breach.call), code(&breach.expected), code(&breach.given)))
    };
    LAWS.iter().filter_map(first).collect()
}

/// A difference of a reader, among the short files first; none where the cases show none.
fn first_difference(reader: Reader, seed: u64, cases: usize) -> Option<Box<Difference>> {
    let look = |number: usize, longest: usize| {
        let case = case(seed, number);
        if case.file.len() > longest { None } else { compare_case(reader, seed, number, &case).err() }
    };
    let soon = (0..cases.min(FIRST)).find_map(|number| look(number, SHORT));
    soon.or_else(|| (0..cases).find_map(|number| look(number, usize::MAX)))
}

/// The case, the call's name, and both codes.
fn place(difference: Option<&Difference>) -> String {
    let Some(difference) = difference else {
        return "NOT FOUND".to_string();
    };
    let (name, expected, given) = (call_name(&difference.call), code(&difference.expected), code(&difference.given));
    format!("case {} {name} {expected} {given}", difference.case)
}

fn call_name(call: &Call) -> String {
    format!("{call:?}").split([' ', '{']).next().unwrap_or_default().to_string()
}

fn code(answer: &Answer) -> String {
    match answer {
        Answer::Failed { code, .. } => code.to_string(),
        Answer::Broken(how) => how.to_string(),
        _ => "ok".to_string(),
    }
}
