//! Texts of reals: most of them within one digit of a bound, others midway between two floats, and texts that are nearly reals.

use super::random::Random;
use super::words::numeral;

/// "the digits are at most": 16 of them.
const GREATEST_DIGITS: u64 = 9_007_199_254_740_992;

/// The powers of ten around both bounds.
const POWERS: [i64; 6] = [-23, -22, -21, 21, 22, 23];

/// The digits of the exponents around both ends of 64 bits.
const EXPONENTS: [&str; 6] = [
    "9223372036854775806", "9223372036854775807", "9223372036854775807", "9223372036854775808", "9223372036854775808", "9223372036854775809",
];

const UNITS: [&str; 8] = ["", "", "", "", "_m", "_m", "_deg", "_rad"];

/// What is nearly a unit.
const NEAR_UNITS: [&str; 28] = [
    "_M", "_mm", "_km", "_nm", "_", "__m", "_m_m", "_m_", "_ m", " _m", "\t_m", "m", "-m", "_m.", "_m1", "_Deg", "_DEG", "_de", "_degr",
    "_dge", "deg", "_ra", "_rads", "_Rad", "_RAD", "_rd", "_deg_rad", "_A",
];

/// What is nearly a number.
const NEAR_NUMBERS: [&str; 24] = [
    "", ".", ".e1", "e5", "e", "1e", "1.e", "1e+", "1e-", "1E5", "1E-5", "1e1.0", "1e.1", "..1", "1..", "1.2.3", "1e1e1", "1e1e", "-1",
    "1e+-1", "0x10", "1,5", "nan", "inf",
];

/// Bytes that the form of a real may have, and their neighbours.
const TELLING: &[u8] = b"0123456789..ee__+-+-mdegrad EEMDR\"\t\r\n\x0b\x0c/:,=fx\x01\x7f";

/// A text, of bytes that may stand in a value; the text of a real or nearly one.
pub fn text(random: &mut Random) -> String {
    let number = match random.below(100) {
        0..=24 => at_the_digits(random),
        25..=54 => at_the_power(random),
        55..=66 => at_the_exponent(random),
        67..=84 => midway(random),
        85..=95 => within(random),
        _ => random.pick(&NEAR_NUMBERS).to_string(),
    };
    let sign = random.pick(&["", "", "", "-", "-", "+"]);
    let unit = if random.percent(6) { random.pick(&NEAR_UNITS) } else { random.pick(&UNITS) };
    let text = format!("{sign}{number}{unit}");
    if random.percent(12) { spoiled(random, text) } else { text }
}

/// The number `digits * 10^power`, written with its point at any place.
fn written(random: &mut Random, digits: &str, power: i64) -> String {
    let zeros = random.pick(&[0, 0, 0, 0, 0, 1, 2, 7, 22, 40]);
    let digits = format!("{}{digits}", "0".repeat(zeros));
    let places = match random.below(6) {
        0 => 0,
        1 => digits.len(),
        _ => random.from_to(0, digits.len()),
    };
    let (whole, fraction) = digits.split_at(digits.len() - places);
    let point = if places > 0 || random.percent(15) { "." } else { "" };
    format!("{whole}{point}{fraction}{}", exponent(random, power + places as i64))
}

/// `e` and a number; 0 mostly by nothing.
fn exponent(random: &mut Random, number: i64) -> String {
    if number == 0 && random.percent(70) {
        return String::new();
    }
    format!("e{}", numeral(random, number))
}

/// Digits around the greatest, mostly with a power inside its bounds.
fn at_the_digits(random: &mut Random) -> String {
    let digits = match random.below(8) {
        0..=2 => GREATEST_DIGITS.to_string(),
        3..=5 => random.pick(&[GREATEST_DIGITS - 1, GREATEST_DIGITS + 1]).to_string(),
        _ => one_digit_off(random, &GREATEST_DIGITS.to_string()),
    };
    let power = if random.percent(15) { random.pick(&POWERS) } else { power_within(random) };
    written(random, &digits, power)
}

/// Another digit, one digit more or one digit less, anywhere.
fn one_digit_off(random: &mut Random, digits: &str) -> String {
    let place = random.below(digits.len());
    let digit = random.below(10).to_string();
    let (before, after) = digits.split_at(place);
    match random.below(4) {
        0 => format!("{before}{}", &after[1..]),
        1 => format!("{before}{digit}{after}"),
        2 => format!("{digits}{digit}"),
        _ => format!("{before}{digit}{}", &after[1..]),
    }
}

fn power_within(random: &mut Random) -> i64 {
    random.from_to(0, 44) as i64 - 22
}

/// A power around a bound, mostly with digits inside theirs: of any length, 0 too, with zeros behind them.
fn at_the_power(random: &mut Random) -> String {
    let power = random.pick(&POWERS);
    let digits = match random.below(8) {
        0 => "0".repeat(random.from_to(1, 24)),
        1 => format!("{}{}", random.from_to(1, 99), "0".repeat(random.below(15))),
        _ => digits_within(random),
    };
    written(random, &digits, power)
}

/// Digits of any length that are not too large.
fn digits_within(random: &mut Random) -> String {
    let bits = random.from_to(1, 53);
    (random.next() >> (64 - bits)).to_string()
}

/// A written exponent around an end of 64 bits.
fn at_the_exponent(random: &mut Random) -> String {
    let near = random.pick(&EXPONENTS);
    let digits = if random.percent(20) { one_digit_off(random, near) } else { near.to_string() };
    let sign = random.pick(&["", "+", "-", "-"]);
    let zeros = "0".repeat(random.pick(&[0, 0, 0, 1, 20]));
    let number = random.pick(&["1", "0", "1.5", ".1", "0.000", "9007199254740993", "7."]);
    format!("{number}e{sign}{zeros}{digits}")
}

/// Digits and power inside their bounds.
fn within(random: &mut Random) -> String {
    let (digits, power) = (digits_within(random), power_within(random));
    written(random, &digits, power)
}

/// A number midway between two floats, or as near to it as digits in bounds come; or one beside a power of two.
fn midway(random: &mut Random) -> String {
    loop {
        let power = random.from_to(1, 22);
        let (digits, power) = match random.below(6) {
            0 | 1 => (product(random, power as u32), power as i64),
            2 | 3 => (quotient(random, power as u32), -(power as i64)),
            4 => (over_ten(random, power as u32), power as i64),
            _ => (times_ten(random, power as u32), -(power as i64)),
        };
        if let Some(digits) = digits {
            return written(random, &digits.to_string(), power);
        }
    }
}

/// Digits whose product with 5^power is midway between two numbers of 53 bits, but for `off`: the last `drop` bits are half of 2^drop and `off`.
fn product(random: &mut Random, power: u32) -> Option<u128> {
    let fives = 5u128.pow(power);
    let drop = random.from_to(1, fives.ilog2() as usize + 1);
    let all = 1u128 << drop;
    let off = random.pick(&[0, 0, 0, 1, all - 1, 2, all - 2]);
    let rest = (all / 2 + off) % all;
    let digits = rest.wrapping_mul(inverse(fives)) % all;
    let least = (1u128 << (52 + drop)).div_ceil(fives);
    let most = ((1u128 << (53 + drop)) - 1) / fives;
    one_of(random, digits, all, least, most)
}

/// The number whose product with this odd one is 1 in 128 bits: each step doubles the bits that are right.
fn inverse(odd: u128) -> u128 {
    (0..7).fold(1, |guess: u128, _| guess.wrapping_mul(2u128.wrapping_sub(odd.wrapping_mul(guess))))
}

/// Digits whose quotient by 5^power is just beside midway: times 2^shift, it is an odd number of 54 bits but for a small remainder.
fn quotient(random: &mut Random, power: u32) -> Option<u128> {
    let fives = 5u128.pow(power);
    let shift = random.from_to(fives.ilog2() as usize, 56);
    let remainder = random.pick(&[1, 1, fives - 1, fives - 1, 3, fives - 3]);
    let halved = |number: u128, _| if number % 2 == 0 { number / 2 } else { (number + fives) / 2 };
    let digits = (0..shift).fold(remainder, halved);
    let least = (fives << 53).div_ceil(1 << shift);
    let most = ((fives << 54) - 1) >> shift;
    one_of(random, digits, fives, least, most)
}

/// Digits whose product with 10^power is beside a power of two.
fn over_ten(random: &mut Random, power: u32) -> Option<u128> {
    let tens = 10u128.pow(power);
    let twos = 1u128 << (tens.ilog2() as usize + random.from_to(51, 53));
    Some(twos / tens + random.below(2) as u128).filter(|&digits| digits <= u128::from(GREATEST_DIGITS))
}

/// Digits whose quotient by 10^power is beside a power of two.
fn times_ten(random: &mut Random, power: u32) -> Option<u128> {
    let all = 10u128.pow(power) << 53;
    let digits = (all >> (all.ilog2() as usize - random.from_to(51, 53))) + random.below(2) as u128;
    Some(digits).filter(|&digits| digits <= u128::from(GREATEST_DIGITS))
}

/// A number in this range, and at most the greatest digits, that is `rest` but for a multiple of `step`.
fn one_of(random: &mut Random, rest: u128, step: u128, least: u128, most: u128) -> Option<u128> {
    let first = least + (rest + step - least % step) % step;
    let last = most.min(u128::from(GREATEST_DIGITS));
    let count = (last + 1).checked_sub(first)?.div_ceil(step);
    (count > 0).then(|| first + step * (u128::from(random.next()) % count))
}

/// One byte more, another one, or one less; a second point, `e` or underscore.
fn spoiled(random: &mut Random, text: String) -> String {
    let mut bytes = text.into_bytes();
    let place = random.below(bytes.len() + 1);
    let byte = random.pick(TELLING);
    match random.below(4) {
        0 if place < bytes.len() => drop(bytes.remove(place)),
        1 if place < bytes.len() => bytes[place] = byte,
        _ => bytes.insert(place, byte),
    }
    bytes.into_iter().map(char::from).collect()
}

#[cfg(test)]
mod tests {
    use super::*;

    #[test]
    fn products_midway() {
        let mut random = Random::new(1);
        let mut count = 0;
        for number in 0..2_000 {
            let power = 1 + number % 22;
            let Some(digits) = product(&mut random, power) else { continue };
            let product = digits * 5u128.pow(power);
            let drop = product.ilog2() - 52;
            let off = (product % (1 << drop)).abs_diff(1 << (drop - 1));
            assert!(digits <= u128::from(GREATEST_DIGITS) && off <= 2, "{digits} {power}");
            count += 1;
        }
        assert!(count > 500, "{count}");
    }

    #[test]
    fn quotients_beside_midway() {
        let mut random = Random::new(2);
        let mut count = 0;
        for number in 0..2_000 {
            let power = 1 + number % 22;
            let Some(digits) = quotient(&mut random, power) else { continue };
            let fives = 5u128.pow(power);
            let shift = (0..).find(|shift| (digits << shift) / fives >= 1 << 53).unwrap();
            let (whole, rest) = ((digits << shift) / fives, (digits << shift) % fives);
            assert!(if whole % 2 == 1 { rest <= 3 } else { rest >= fives - 3 }, "{digits} {power}");
            count += 1;
        }
        assert!(count > 500, "{count}");
    }

    /// The power of two lies at most one unit of the last digit away.
    #[test]
    fn beside_a_power_of_two() {
        let mut random = Random::new(4);
        for power in 1..=22 {
            let tens = 10u128.pow(power);
            let digits = (0..9).find_map(|_| over_ten(&mut random, power)).unwrap();
            let twos = |digits: u128| (digits * tens).next_power_of_two();
            assert!(twos(digits - 1) - (digits - 1) * tens < 2 * tens, "{digits} {power}");
            let digits = (0..9).find_map(|_| times_ten(&mut random, power)).unwrap();
            let log = |digits: u128| ((digits << 73) / tens).ilog2();
            assert!(log(digits + 1) > log(digits - 2), "{digits} {power}");
        }
    }

    #[test]
    fn an_inverse_in_128_bits() {
        for odd in [1, 3, 5, 5u128.pow(22)] {
            assert_eq!(odd.wrapping_mul(inverse(odd)), 1);
        }
    }

    /// A text ends no statement and no header.
    #[test]
    fn texts_may_stand_in_a_value() {
        let mut random = Random::new(3);
        for _ in 0..10_000 {
            let text = text(&mut random);
            assert!(text.bytes().all(|byte| (1..=127).contains(&byte) && !b";{}".contains(&byte)), "{text:?}");
            assert!(text.len() < 200, "{text:?}");
        }
    }
}
