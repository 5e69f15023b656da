//! Whole numbers.

/// "A whole number is an optional sign and one or more digits, from -2^63 to 2^63 - 1."
pub fn parse_whole(bytes: &[u8]) -> Option<i64> {
    let (sign, digits) = split_sign(bytes);
    if digits.is_empty() || !all_digits(digits) {
        return None;
    }
    i64::try_from(sign * magnitude(digits)?).ok()
}

pub fn all_digits(bytes: &[u8]) -> bool {
    bytes.iter().all(|byte| (b'0'..=b'9').contains(byte))
}

fn split_sign(bytes: &[u8]) -> (i128, &[u8]) {
    match bytes.split_first() {
        Some((b'-', digits)) => (-1, digits),
        Some((b'+', digits)) => (1, digits),
        _ => (1, bytes),
    }
}

/// The sum of each digit times its power of ten; none where more than 19 digits are significant.
fn magnitude(digits: &[u8]) -> Option<i128> {
    let zeros = digits.iter().take_while(|&&digit| digit == b'0').count();
    let significant = &digits[zeros..];
    if significant.len() > 19 {
        return None;
    }
    let from_the_right = significant.iter().rev().zip(0u32..);
    Some(from_the_right.map(|(&digit, power)| i128::from(digit - b'0') * 10i128.pow(power)).sum())
}

#[cfg(test)]
mod tests {
    use super::*;

    #[test]
    fn signs_and_leading_zeros() {
        assert_eq!(parse_whole(b"0"), Some(0));
        assert_eq!(parse_whole(b"+1"), Some(1));
        assert_eq!(parse_whole(b"01"), Some(1));
        assert_eq!(parse_whole(b"-0"), Some(0));
        assert_eq!(parse_whole(b"-00000000000000000000000000000000000000000000000000012"), Some(-12));
    }

    #[test]
    fn both_sides_of_the_range() {
        assert_eq!(parse_whole(b"9223372036854775807"), Some(i64::MAX));
        assert_eq!(parse_whole(b"9223372036854775808"), None);
        assert_eq!(parse_whole(b"-9223372036854775808"), Some(i64::MIN));
        assert_eq!(parse_whole(b"-9223372036854775809"), None);
        assert_eq!(parse_whole(b"10000000000000000000"), None);
        assert_eq!(parse_whole(b"99999999999999999999999999999999999999999999"), None);
    }

    #[test]
    fn no_whole_numbers() {
        for bytes in [&b""[..], b"+", b"-", b"+-1", b"1 2", b"1.0", b"0x1", b"1\n", b" 1", b"1_m", b"\xb2"] {
            assert_eq!(parse_whole(bytes), None, "{bytes:?}");
        }
    }
}
