//! Reals: 02, No. 2. The value is an exact fraction of whole numbers, rounded once, by whole numbers alone.

use super::error::{demand, refuse, Error};
use super::keywords::find;
use super::number::parse_whole;
use super::span::part;

/// "With the point taken out the digits are at most 9,007,199,254,740,992".
pub const GREATEST_DIGITS: u128 = 9_007_199_254_740_992;

/// "the resulting power of ten lies from -22 to 22".
pub const LEAST_POWER: i128 = -22;
pub const GREATEST_POWER: i128 = 22;

/// "The answer is a bare number, metres, degrees or radians, each carrying its 64-bit float."
#[derive(Clone, Copy, Debug, PartialEq)]
pub enum Real {
    Number(f64),
    Metres(f64),
    Degrees(f64),
    Radians(f64),
}

/// A keyword read as a real: "18 for bad form, then 27 outside those bounds", both at place 0.
pub fn real(file: &[u8], block: usize, key: &[u8]) -> Result<Real, Error> {
    let span = find(file, block, key)?;
    let Some(written) = parse_real(part(file, span)) else {
        return refuse(18, 0);
    };
    demand(written.in_bounds(), 27, 0)?;
    Ok((written.unit)(written.float()))
}

/// A real as it is written.
#[derive(Clone, Debug)]
pub struct Written {
    pub negative: bool,
    /// All digits before the exponent, the point taken out.
    pub digits: Vec<u8>,
    /// How many of them stand after the point.
    pub places: usize,
    pub exponent: i64,
    /// What the unit makes of a float.
    pub unit: fn(f64) -> Real,
}

/// What the last byte was, read from the left.
#[derive(Clone, Copy, PartialEq)]
enum Place {
    Start,
    Sign,
    Whole,
    PointFirst,
    Fraction,
    Exponent,
    ExponentSign,
    ExponentDigit,
    Unit,
}

/// Where the next byte leads; none where it cannot stand there. What follows an underscore is judged as a whole.
fn step(place: Place, byte: u8) -> Option<Place> {
    match (place, byte) {
        (Place::Start, b'+' | b'-') => Some(Place::Sign),
        (Place::Start | Place::Sign | Place::Whole, b'0'..=b'9') => Some(Place::Whole),
        (Place::Start | Place::Sign, b'.') => Some(Place::PointFirst),
        (Place::Whole, b'.') => Some(Place::Fraction),
        (Place::PointFirst | Place::Fraction, b'0'..=b'9') => Some(Place::Fraction),
        (Place::Whole | Place::Fraction, b'e') => Some(Place::Exponent),
        (Place::Exponent, b'+' | b'-') => Some(Place::ExponentSign),
        (Place::Exponent | Place::ExponentSign | Place::ExponentDigit, b'0'..=b'9') => Some(Place::ExponentDigit),
        (Place::Whole | Place::Fraction | Place::ExponentDigit, b'_') => Some(Place::Unit),
        (Place::Unit, _) => Some(Place::Unit),
        _ => None,
    }
}

/// Each byte with the place that it leads to; none where one cannot stand, or nothing may end there.
fn places(bytes: &[u8]) -> Option<Vec<(Place, u8)>> {
    let mut place = Place::Start;
    let mut all = Vec::new();
    for &byte in bytes {
        place = step(place, byte)?;
        all.push((place, byte));
    }
    let ends = [Place::Whole, Place::Fraction, Place::ExponentDigit, Place::Unit];
    Some(all).filter(|_| ends.contains(&place))
}

/// "optional sign, digits with at most one point, at least one digit, optional `e` and a whole number,
/// then optionally an underscore and m, deg or rad".
pub fn parse_real(bytes: &[u8]) -> Option<Written> {
    let all = places(bytes)?;
    let at = |wanted: &[Place]| all.iter().filter(|(place, _)| wanted.contains(place)).map(|&(_, byte)| byte).collect::<Vec<u8>>();
    let digits_at = |wanted: &[Place]| at(wanted).into_iter().filter(|&byte| byte != b'.').collect::<Vec<u8>>();
    let exponent = at(&[Place::ExponentSign, Place::ExponentDigit]);
    Some(Written {
        negative: at(&[Place::Sign]) == b"-",
        digits: digits_at(&[Place::Whole, Place::PointFirst, Place::Fraction]),
        places: digits_at(&[Place::Fraction]).len(),
        exponent: if exponent.is_empty() { 0 } else { parse_whole(&exponent)? },
        unit: unit(&at(&[Place::Unit]))?,
    })
}

/// The unit of what stands from the underscore on.
fn unit(bytes: &[u8]) -> Option<fn(f64) -> Real> {
    match bytes {
        b"" => Some(Real::Number),
        b"_m" => Some(Real::Metres),
        b"_deg" => Some(Real::Degrees),
        b"_rad" => Some(Real::Radians),
        _ => None,
    }
}

impl Written {
    /// The digits as a whole number; none where it has more than 128 bits.
    pub fn whole(&self) -> Option<u128> {
        let next = |number: u128, digit: &u8| number.checked_mul(10)?.checked_add(u128::from(digit - b'0'));
        self.digits.iter().try_fold(0, next)
    }

    /// "the resulting power of ten".
    pub fn power(&self) -> i128 {
        i128::from(self.exponent) - self.places as i128
    }

    fn in_bounds(&self) -> bool {
        self.whole().is_some_and(|number| number <= GREATEST_DIGITS) && (LEAST_POWER..=GREATEST_POWER).contains(&self.power())
    }

    /// The nearest float, for a real in bounds; "the sign put on last (so -0 is minus zero)".
    fn float(&self) -> f64 {
        let magnitude = fraction(self.whole().unwrap_or(0), self.power() as i32).nearest();
        let sign = u64::from(self.negative) << 63;
        f64::from_bits(sign | magnitude)
    }
}

/// The number `numerator / denominator * 2^twos`, exactly.
struct Fraction {
    numerator: u128,
    denominator: u128,
    twos: i32,
}

/// `number * 10^power`, the twos of the power by themselves.
fn fraction(number: u128, power: i32) -> Fraction {
    let fives = 5u128.pow(power.unsigned_abs());
    if power < 0 {
        Fraction { numerator: number, denominator: fives, twos: power }
    } else {
        Fraction { numerator: number * fives, denominator: 1, twos: power }
    }
}

impl Fraction {
    /// The bits of the nearest float, of two that are as near the one with an even last bit.
    fn nearest(&self) -> u64 {
        if self.numerator == 0 {
            return 0;
        }
        let shift = self.numerator.leading_zeros();
        let (numerator, twos) = (self.numerator << shift, self.twos - shift as i32);
        let (quotient, remainder) = (numerator / self.denominator, numerator % self.denominator);
        let dropped = 128 - quotient.leading_zeros() - 53;
        let (kept, rest) = (quotient >> dropped, quotient & ((1 << dropped) - 1));
        let twice = (2 * rest, u128::from(remainder > 0));
        let half: (u128, u128) = (1 << dropped, 0);
        let up = twice > half || (twice == half && kept % 2 == 1);
        bits(kept + u128::from(up), twos + dropped as i32)
    }
}

/// The bits of `number * 2^twos`, for a number from 2^52 to 2^53 and an exponent of a float that is normal.
fn bits(number: u128, twos: i32) -> u64 {
    let exponent = (1_023 + 52 + twos) as u64;
    (exponent << 52) + (number - (1 << 52)) as u64
}

#[cfg(test)]
mod tests {
    use super::super::samples::{general, one_block};
    use super::*;

    fn read(value: &str) -> Result<Real, (u8, usize)> {
        real(&one_block(&format!("w={value};"), b""), 0, b"w").map_err(|e| (e.code, e.position))
    }

    fn bits_of(value: &str) -> u64 {
        match read(value) {
            Ok(Real::Number(float)) => float.to_bits(),
            other => panic!("{value}: {other:?}"),
        }
    }

    #[test]
    fn forms() {
        for (value, float) in [("1", 1.0), ("+1.5", 1.5), ("-.5", -0.5), ("5.", 5.0), ("5.e1", 50.0), ("15e-1", 1.5), ("00012e+00", 12.0)] {
            assert_eq!(read(value), Ok(Real::Number(float)), "{value}");
        }
        assert_eq!(read("1.5e-1_m"), Ok(Real::Metres(0.15)));
        assert_eq!(read("32.5_deg"), Ok(Real::Degrees(32.5)));
        assert_eq!(read("-2_rad"), Ok(Real::Radians(-2.0)));
    }

    #[test]
    fn no_forms() {
        let bad = [
            "", ".", "+", "+.", "+-1", "1.2.3", "..1", ".e1", "e1", "1e", "1e+", "1e+-1", "1e1.0", "1e1e1", "1E5", "1_", "_m", "+_m", "1_M",
            "1_mm", "1_m_m", "1__m", "1m", "1_ m", "1 _m", "1 5", "1\r\n5", "1,5", "0x1", "1_de", "1_degr", "1e_m", "nan", "inf", "\" 1\"",
        ];
        for value in bad {
            assert_eq!(read(value), Err((18, 0)), "{value}");
        }
    }

    #[test]
    fn bounds_of_digits_and_powers() {
        for value in ["9007199254740992", "1e22", "1e-22", "0.1e23", "1.5e23", "1.000000000000000", &format!("{}1.5", "0".repeat(40))] {
            assert!(read(value).is_ok(), "{value}");
        }
        let zeros = format!("0.{}", "0".repeat(23));
        for value in ["9007199254740993", "1e23", "1e-23", "0e23", "1.5e-22", "1.0000000000000000", &zeros, &"9".repeat(400)] {
            assert_eq!(read(value), Err((27, 0)), "{value}");
        }
    }

    #[test]
    fn exponents_of_64_bits() {
        assert_eq!(read("1e9223372036854775807"), Err((27, 0)));
        assert_eq!(read("1e9223372036854775808"), Err((18, 0)));
        assert_eq!(read(".1e-9223372036854775808"), Err((27, 0)));
        assert_eq!(read("1e-9223372036854775809"), Err((18, 0)));
        assert_eq!(read("99999999999999999e9223372036854775808_m"), Err((18, 0)));
    }

    #[test]
    fn bits_of_floats() {
        assert_eq!(bits_of("0.1"), 0x3fb9_9999_9999_999a);
        assert_eq!(bits_of("1e22"), 0x4480_f0cf_064d_d592);
        assert_eq!(bits_of("9007199254740992e22"), 0x47d0_f0cf_064d_d592);
        assert_eq!(bits_of("1e-22"), 0x3b5e_3920_1017_5ee6);
        assert_eq!(bits_of("9007199254740991e-1"), 0x4309_9999_9999_9999);
        assert_eq!((bits_of("0"), bits_of("-0"), bits_of("-.0e5")), (0, 1 << 63, 1 << 63));
    }

    /// Floats around 2^53 are even whole numbers, and an odd one is midway: it goes to the multiple of 4. Around 2^54 these are twice as large.
    #[test]
    fn midway() {
        let nearest = |number: u128| fraction(number, 0).nearest();
        let odd = (1 << 53) + 1;
        assert_eq!((nearest(odd), nearest(odd + 2)), (nearest(odd - 1), nearest(odd + 3)));
        let twice = 2 * odd;
        assert_eq!([twice - 1, twice, twice + 1].map(nearest), [twice - 2, twice - 2, twice + 2].map(nearest));
        assert_eq!(nearest((1 << 54) - 1), nearest(1 << 54));
        assert_eq!(bits_of("7205759403792794e1"), 0x4370_0000_0000_0000);
    }

    /// The float that Rust's own library reads, for digits and powers of all sizes.
    #[test]
    fn as_rust_reads_it() {
        for power in LEAST_POWER as i32..=GREATEST_POWER as i32 {
            for number in (0..54).flat_map(|shift| [1u64 << shift, (1 << shift) - 1, (1 << shift) / 3, (1 << shift) / 7 * 5]) {
                let text = format!("{number}e{power}");
                assert_eq!(bits_of(&text), text.parse::<f64>().unwrap().to_bits(), "{text}");
            }
        }
    }

    #[test]
    fn a_keyword_first() {
        let file = [general("1", 512, "Shared=1_m;Own=2;"), one_block("Own=-3_rad;", b"")].concat();
        assert_eq!(real(&file, 1, b"shared"), Ok(Real::Metres(1.0)));
        assert_eq!(real(&file, 1, b" OWN "), Ok(Real::Radians(-3.0)));
        assert_eq!(real(&file, 1, b"none"), Err(Error { code: 16, position: 0 }));
        assert_eq!(real(&file, 2, b"own"), Err(Error { code: 16, position: 0 }));
        assert_eq!(real(&file[..600], 0, b"own"), Err(Error { code: 5, position: 512 }));
    }

    #[test]
    fn quotes_are_removed_first() {
        assert_eq!(read("\"1.5_m\""), Ok(Real::Metres(1.5)));
        assert_eq!((read("\"1"), read("1\"")), (Ok(Real::Number(1.0)), Ok(Real::Number(1.0))));
        assert_eq!(read("\"1e99\""), Err((27, 0)));
    }
}
