//! Generated texts, each as the value of a keyword, read as reals: the library and the second reader give the same unit and every bit of
//! the same float, or the same error; where they give a float, Rust's own library reads the same one. At least half of the texts are
//! within one digit of a bound. What a text shows is judged here by cutting it, in another way than the second reader reads it.
//! EDF_SEED and EDF_TEXTS say which texts, and how many.

use edf_tests::answer::{answer, Answer, Call};
use edf_tests::files::padded;
use edf_tests::generate::random::Random;
use edf_tests::generate::reals;
use edf_tests::library;
use edf_tests::parallel;
use std::collections::{BTreeMap, BTreeSet};

/// How many texts there are unless EDF_TEXTS says otherwise; `wanted` is for so many.
const TEXTS: usize = 200_000;

const GREATEST_DIGITS: &str = "9007199254740992";
const GREATEST_EXPONENT: &str = "9223372036854775807";
const LEAST_EXPONENT: &str = "9223372036854775808";
const POWERS: [i128; 6] = [-23, -22, -21, 21, 22, 23];

/// The point is to stand at each place up to this, as many digits as are significant at most.
const MOST_PLACES: usize = 16;

fn number(name: &str, default: usize) -> usize {
    std::env::var(name).map_or(default, |text| text.parse().expect(name))
}

/// A file whose only keyword has this value, its header filled to a multiple of 512.
fn file(text: &str) -> Vec<u8> {
    let body = format!("w={text};");
    padded(&body, (body.len() + 3).next_multiple_of(512))
}

/// The answer that both give.
fn compared(text: &str) -> Answer {
    let (file, call) = (file(text), Call::Real { block: 0, key: b"w".to_vec() });
    let expected = answer(&file, &call);
    assert_eq!(library::answer(&file, &call), Some(expected.clone()), "{text:?}");
    expected
}

/// A text cut at its first underscore and `e`: whether it is negative, its digits, how many stand after the point, and its exponent.
struct Pieces {
    negative: bool,
    digits: String,
    places: usize,
    exponent: String,
}

/// The pieces of what may be a real of any size: digits and an exponent are there, and a unit that there is.
fn pieces(text: &str) -> Option<Pieces> {
    let (number, unit) = text.split_once('_').map_or((text, None), |(number, unit)| (number, Some(unit)));
    let (mantissa, exponent) = number.split_once('e').unwrap_or((number, "0"));
    let unsigned = mantissa.strip_prefix(['+', '-']).unwrap_or(mantissa);
    let (whole, fraction) = unsigned.split_once('.').unwrap_or((unsigned, ""));
    let digits = format!("{whole}{fraction}");
    let known = unit.is_none_or(|unit| ["m", "deg", "rad"].contains(&unit));
    let good = known && all_digits(&digits) && all_digits(exponent.strip_prefix(['+', '-']).unwrap_or(exponent));
    good.then(|| Pieces { negative: mantissa.starts_with('-'), digits, places: fraction.len(), exponent: exponent.to_string() })
}

fn all_digits(text: &str) -> bool {
    !text.is_empty() && text.bytes().all(|byte| byte.is_ascii_digit())
}

/// Digits without the zeros before them.
fn significant(digits: &str) -> &str {
    digits.trim_start_matches('0')
}

/// The same digits but for one that is another, is missing, or is there besides.
fn one_digit_off(one: &str, other: &str) -> bool {
    let (short, long) = if one.len() <= other.len() { (one, other) } else { (other, one) };
    let before = short.bytes().zip(long.bytes()).take_while(|(a, b)| a == b).count();
    match long.len() - short.len() {
        0 => short.get(before + 1..).is_none_or(|rest| rest == &long[before + 1..]),
        1 => short[before..] == long[before + 1..],
        _ => false,
    }
}

impl Pieces {
    /// The exponent's digits, and whether it is below 0.
    fn exponent_digits(&self) -> (&str, bool) {
        (significant(self.exponent.trim_start_matches(['+', '-'])), self.exponent.starts_with('-'))
    }

    /// The resulting power of ten; none where the exponent is too long for 128 bits.
    fn power(&self) -> Option<i128> {
        Some(self.exponent.parse::<i128>().ok()? - self.places as i128)
    }

    fn whole(&self) -> Option<u128> {
        self.digits.parse().ok()
    }

    /// Within one digit of a bound on the digits, the power or the exponent.
    fn near_a_bound(&self) -> bool {
        let exponent = self.exponent_digits().0;
        one_digit_off(significant(&self.digits), GREATEST_DIGITS)
            || self.power().is_some_and(|power| POWERS.contains(&power))
            || [GREATEST_EXPONENT, LEAST_EXPONENT].iter().any(|bound| one_digit_off(exponent, bound))
    }

    /// Which side of each bound the text stands on, if it is beside one.
    fn sides(&self) -> Vec<String> {
        let mut sides = Vec::new();
        let (exponent, below_0) = self.exponent_digits();
        let (Some(whole), Some(power)) = (self.whole(), self.power()) else { return sides };
        if (1 << 53) - 1 <= whole && whole <= (1 << 53) + 1 && power.abs() <= 22 {
            sides.push(format!("digits {whole}"));
        }
        if POWERS.contains(&power) && whole <= 1 << 53 {
            sides.push(format!("power {power}"));
            sides.extend(Some(self.places).filter(|&places| places <= MOST_PLACES).map(|places| format!("power {power} with {places} places")));
        }
        if exponent.len() == 19 && exponent.starts_with("922337203685477580") {
            sides.push(format!("exponent {}{exponent}", if below_0 { "-" } else { "" }));
        }
        if whole == 0 {
            sides.push(format!("{}zero", if self.negative { "minus " } else { "" }));
        }
        sides
    }

    /// Where the number stands between two floats, if that is midway or nearly so: all reckoned in numbers of 54 bits, the odd ones of
    /// which are midway.
    fn midway(&self) -> Option<String> {
        let (whole, power) = (self.whole().filter(|whole| (1..=1 << 53).contains(whole))?, self.power().filter(|power| power.abs() <= 22)?);
        let fives = 5u128.pow(power.unsigned_abs() as u32);
        let (over, under) = if power < 0 { (whole, fives) } else { (whole * fives, 1) };
        let (over, under) = of_54_bits(over, under);
        let (quotient, rest) = (over / under, over % under);
        if quotient == (1 << 54) - 1 {
            return Some("up to a power of two".to_string());
        }
        match (quotient % 4, rest) {
            (1, 0) => Some("midway, even below".to_string()),
            (3, 0) => Some("midway, even above".to_string()),
            (1 | 3, rest) if rest < under >> 20 => Some("just above midway".to_string()),
            (0 | 2, rest) if under - rest < under >> 20 => Some("just below midway".to_string()),
            _ => None,
        }
        .map(|place| format!("{place}, {}", if power < 0 { "by division" } else { "by multiplication" }))
    }
}

/// The same fraction times a power of two, so that its whole part has 54 bits.
fn of_54_bits(mut over: u128, mut under: u128) -> (u128, u128) {
    while over / under < 1 << 53 {
        over *= 2;
    }
    while over / under >= 1 << 54 {
        under *= 2;
    }
    (over, under)
}

/// What keeps a text of bad form from being good.
fn faults(text: &str) -> Vec<String> {
    let faults = [
        (text.matches('.').count() > 1, "second point"),
        (text.split('_').next().is_some_and(|number| number.matches('e').count() > 1), "second e"),
        (text.matches('_').count() > 1, "second underscore"),
        (text.contains('E'), "capital E"),
        (text.trim().contains([' ', '\t', '\x0b', '\x0c']), "white inside"),
        (text.trim().contains(['\r', '\n']), "CR or LF inside"),
        (text.split_once('_').is_some_and(|(_, unit)| !["m", "deg", "rad"].contains(&unit)), "no such unit"),
        (text.ends_with(['e', '+', '-']), "no digits after e"),
    ];
    faults.into_iter().filter(|(is, _)| *is).map(|(_, name)| format!("18: {name}")).collect()
}

/// What the answer is, in a word or number.
fn outcome(answer: &Answer) -> String {
    match answer {
        Answer::Real { unit, .. } => format!("unit {unit}"),
        Answer::Failed { code, position: 0 } => code.to_string(),
        other => panic!("{other:?}"),
    }
}

/// Rust's own library reads the same float. Quotes and white around the text are no part of it.
fn as_rust_reads_it(text: &str, bits: u64) {
    let value = text.trim().trim_matches('"');
    let number = value.split_once('_').map_or(value, |(number, _)| number);
    assert_eq!(number.parse::<f64>().map(f64::to_bits), Ok(bits), "{text:?}");
}

/// All that a text and its answer show: outcome, nearness to a bound, sides of bounds with the outcome.
fn shown(text: &str) -> BTreeSet<String> {
    let answer = compared(text);
    if let Answer::Real { bits, .. } = answer {
        as_rust_reads_it(text, bits);
    }
    let outcome = outcome(&answer);
    let good = if outcome.starts_with("unit") { "good" } else { &outcome };
    let mut shown = BTreeSet::from([outcome.clone()]);
    if outcome == "18" {
        shown.extend(faults(text));
    }
    if let Some(pieces) = pieces(text) {
        shown.extend(pieces.near_a_bound().then(|| "near a bound".to_string()));
        shown.extend(pieces.sides().into_iter().map(|side| format!("{side}: {good}")));
        shown.extend(pieces.midway().filter(|_| good == "good"));
    }
    shown
}

/// How many of the texts are to show each of these at least.
fn wanted() -> Vec<(String, usize)> {
    let outcomes = ["unit 0", "unit 1", "unit 2", "unit 3", "18", "27"];
    let mut wanted: Vec<(String, usize)> = outcomes.map(|outcome| (outcome.to_string(), 10_000)).to_vec();
    let sides = [
        "digits 9007199254740991: good", "digits 9007199254740992: good", "digits 9007199254740993: 27",
        "power -23: 27", "power -22: good", "power -21: good", "power 21: good", "power 22: good", "power 23: 27",
        "exponent 9223372036854775807: 27", "exponent 9223372036854775808: 18", "exponent -9223372036854775808: 27",
        "exponent -9223372036854775809: 18", "zero: good", "zero: 27", "minus zero: good", "minus zero: 27",
        "midway, even below, by multiplication", "midway, even above, by multiplication", "just below midway, by multiplication",
        "just above midway, by multiplication", "just below midway, by division", "just above midway, by division", "up to a power of two",
    ];
    wanted.extend(sides.map(|side| (side.to_string(), 500)));
    let faults = ["second point", "second e", "second underscore", "capital E", "white inside", "CR or LF inside", "no such unit", "no digits after e"];
    wanted.extend(faults.map(|fault| (format!("18: {fault}"), 100)));
    for power in POWERS {
        let code = if power.abs() > 22 { "27" } else { "good" };
        wanted.extend((0..=MOST_PLACES).map(|places| (format!("power {power} with {places} places: {code}"), 50)));
    }
    wanted
}

#[test]
fn texts_are_read_alike() {
    let (seed, texts) = (number("EDF_SEED", 1) as u64, number("EDF_TEXTS", TEXTS));
    let mut counts: BTreeMap<String, usize> = BTreeMap::new();
    let all = parallel::for_each(0..texts, |number| shown(&reals::text(&mut Random::of(seed, number as u64))));
    all.into_iter().flatten().for_each(|what| *counts.entry(what).or_default() += 1);
    println!("seed {seed}, {texts} texts: {counts:#?}");
    assert!(counts["near a bound"] * 2 >= texts, "{} near a bound", counts["near a bound"]);
    for (what, least) in wanted() {
        let count = counts.get(&what).copied().unwrap_or(0);
        assert!(count * TEXTS >= least * texts, "{what}: {count}");
    }
}

#[test]
fn digits_that_are_nearly_the_same() {
    for near in ["123", "23", "12", "13", "124", "0123", "1234", "1023"] {
        assert!(one_digit_off(near, "123") && one_digit_off("123", near), "{near}");
    }
    for far in ["1", "", "321", "1324", "12345", "01234", "132"] {
        assert!(!one_digit_off(far, "123") && !one_digit_off("123", far), "{far}");
    }
}
