//! Reals: 02, No. 2. `reals.tsv` has values with their answers in every bit; the other tables are worked out by hand.

use crate::columns::{lines, unescaped};
use edf_tests::answer::{Answer, Call};
use edf_tests::both::both;
use edf_tests::files::{array, data, general};
use edf_tests::told::expect;

/// Lines of value, `ok` or `error`, unit or code, the float's bits, and the float in decimal.
const TABLE: &str = include_str!("reals.tsv");

fn file(value: &[u8]) -> Vec<u8> {
    [b"{w=", value, b";}\n"].concat()
}

fn call() -> Call {
    Call::Real { block: 0, key: b"w".to_vec() }
}

/// The answer of a line.
fn answer_of(line: &str) -> Answer {
    let [_, outcome, unit_or_code, bits, decimal] = line.split('\t').collect::<Vec<_>>()[..] else { panic!("{line}") };
    if outcome == "error" {
        return Answer::Failed { code: unit_or_code.parse().unwrap(), position: 0 };
    }
    assert_eq!(outcome, "ok");
    let unit = ["-", "m", "deg", "rad"].iter().position(|&unit| unit == unit_or_code).unwrap() as u8;
    let bits = u64::from_str_radix(bits, 16).unwrap();
    assert_eq!(decimal.parse::<f64>().unwrap().to_bits(), bits, "{line}");
    Answer::Real { unit, bits }
}

#[test]
fn every_bit_of_the_table() {
    let lines = lines(TABLE);
    assert_eq!(lines.len(), 127);
    for line in lines {
        let value = unescaped(line.split('\t').next().unwrap());
        assert_eq!(both(&file(&value), &call()), answer_of(line), "{line}");
    }
}

fn expect_all(table: &[(&str, &str)]) {
    for (value, expected) in table {
        expect(&file(value.as_bytes()), call(), expected);
    }
}

/// Signs, points, exponents and units; white, quotes, and what is no part of a number.
#[test]
fn forms() {
    expect_all(&[
        ("0.98_m", "metres 0.98"),
        (" -12.5_deg ", "degrees -12.5"),
        ("+3e0_rad", "radians 3.0"),
        ("5.e1_m", "metres 50.0"),
        ("-.5e-1", "number -0.05"),
        ("-0", "number -0.0"),
        ("-.0_deg", "degrees -0.0"),
        ("-0e5", "number -0.0"),
        ("+0", "number 0.0"),
        ("\"1.5_m\"", "metres 1.5"),
        ("\"1", "number 1.0"),
        ("1_m\"", "metres 1.0"),
        ("\"1 \"", "refused 18 0"),
        ("\"\"1\"\"", "refused 18 0"),
        ("1_rad_", "refused 18 0"),
        ("1_deg_m", "refused 18 0"),
        ("1_km", "refused 18 0"),
        ("1_e", "refused 18 0"),
        ("1_m1", "refused 18 0"),
        ("1e5e5", "refused 18 0"),
        ("1e.5", "refused 18 0"),
        ("1.e", "refused 18 0"),
        ("1..", "refused 18 0"),
        (".1.", "refused 18 0"),
        ("1-", "refused 18 0"),
        ("- 1", "refused 18 0"),
        ("1\t", "number 1.0"),
        ("1e5\n_m", "refused 18 0"),
        ("/1", "refused 18 0"),
        (":", "refused 18 0"),
        ("", "refused 18 0"),
    ]);
}

/// Both sides of each bound: the digits as they are written, and the power that is left when the point is taken out.
#[test]
fn bounds() {
    let zeros = |count: usize| "0".repeat(count);
    let table = [
        ("900719925474.0992e4".to_string(), "number 9007199254740992.0"),
        ("900719925474.0993e4".to_string(), "refused 27 0"),
        ("90071992547409920".to_string(), "refused 27 0"),
        ("9007199254740992e22".to_string(), "number 9.007199254740992e37"),
        ("9007199254740992e23".to_string(), "refused 27 0"),
        (format!("{}9007199254740992", zeros(1_000)), "number 9007199254740992.0"),
        (format!("{}9007199254740993", zeros(1_000)), "refused 27 0"),
        (format!(".{}", zeros(22)), "number 0.0"),
        (format!("-.{}", zeros(23)), "refused 27 0"),
        (format!("-.{}e1", zeros(23)), "number -0.0"),
        (format!(".{}1e2000", zeros(1_999)), "number 1.0"),
        (format!(".{}1e2022", zeros(1_999)), "number 1e22"),
        (format!(".{}1e2023", zeros(1_999)), "refused 27 0"),
        (format!("1{}e-22", zeros(15)), "number 1e-7"),
        (format!("1{}e-22", zeros(16)), "refused 27 0"),
        (format!("1e{}22", zeros(1_000)), "number 1e22"),
        (format!("1e-{}23", zeros(1_000)), "refused 27 0"),
        ("0e-9223372036854775808".to_string(), "refused 27 0"),
        (".1e-9223372036854775808".to_string(), "refused 27 0"),
        ("0e-9223372036854775809".to_string(), "refused 18 0"),
        ("9".repeat(2_048), "refused 27 0"),
        (format!("{}_M", "9".repeat(2_046)), "refused 18 0"),
        ("99999999999999999e99x".to_string(), "refused 18 0"),
    ];
    expect_all(&table.each_ref().map(|(value, expected)| (value.as_str(), *expected)));
}

/// Floats from 2^54 to 2^55 are multiples of 4, from 2^56 to 2^57 of 16: a number midway between two goes to the one that is an even multiple.
/// 2^54 is 18014398509481984, and 2^56 is 72057594037927936.
#[test]
fn rounding_to_whole_numbers() {
    let table: [(&str, i64); 10] = [
        ("1801439850948199e1", (1 << 54) + 8),
        ("-1801439850948199e1", -(1 << 54) - 8),
        ("1801439850948201e1", (1 << 54) + 24),
        ("-1801439850948201e1", -(1 << 54) - 24),
        ("7205759403792795e1", (1 << 56) + 16),
        ("7205759403792796e1", (1 << 56) + 32),
        ("7205759403792797e1", (1 << 56) + 32),
        ("7205759403792804e1", (1 << 56) + 96),
        ("7205759403792805e1", (1 << 56) + 112),
        ("9007199254740991", (1 << 53) - 1),
    ];
    for (value, expected) in table {
        let float = expected as f64;
        assert_eq!(float as i64, expected);
        assert_eq!(both(&file(value.as_bytes()), &call()), Answer::Real { unit: 0, bits: float.to_bits() }, "{value}");
    }
}

/// The nearest float, by the fewest digits that name it.
#[test]
fn rounding() {
    expect_all(&[
        ("10e22", "number 1e23"),
        ("0.1", "number 0.1"),
        ("3e-1", "number 0.3"),
        ("123456789e-9", "number 0.123456789"),
        ("9007199254740991e-22", "number 9.007199254740991e-7"),
    ]);
}

/// A keyword is found as any other; errors of opening and 16 come first.
#[test]
fn keywords() {
    let shared = general("1", "EDF_Angle=1_deg;Wavelength=1e-10_m;Both=x;");
    let file = [shared, data("1.Image.Psd", "Both=2_rad;Far=1e23;EDF_Angle=3;")].concat();
    let table: [(usize, &str, &str); 11] = [
        (1, "Wavelength", "metres 1e-10"),
        (0, "WAVE length", "metres 1e-10"),
        (1, "both", "radians 2.0"),
        (0, "both", "refused 18 0"),
        (1, "Far", "refused 27 0"),
        (0, "Far", "refused 16 0"),
        (0, "EDF_Angle", "degrees 1.0"),
        (1, "EDF_Angle", "number 3.0"),
        (2, "Both", "refused 16 0"),
        (usize::MAX, "Both", "refused 16 0"),
        (1, "", "refused 16 0"),
    ];
    for (block, key, expected) in table {
        expect(&file, Call::Real { block, key: key.as_bytes().to_vec() }, expected);
    }
    expect(&file[..1_000], Call::Real { block: 1, key: b"Far".to_vec() }, "refused 5 512");
    let inherited = [general("1", "EDF_Angle=1_deg;"), array("", &[])].concat();
    expect(&inherited, Call::Real { block: 1, key: b"EDF_Angle".to_vec() }, "refused 16 0");
}

/// A whole number is a real too; a real need be no whole number.
#[test]
fn beside_whole_numbers() {
    let table = [
        ("+012", "12", "number 12.0"),
        ("-0", "0", "number -0.0"),
        ("1.0", "refused 18 0", "number 1.0"),
        ("1x", "refused 18 0", "refused 18 0"),
        ("9223372036854775807", "9223372036854775807", "refused 27 0"),
    ];
    for (value, whole, real) in table {
        expect(&file(value.as_bytes()), Call::WholeNumber { block: 0, key: b"w".to_vec() }, whole);
        expect(&file(value.as_bytes()), call(), real);
    }
}
