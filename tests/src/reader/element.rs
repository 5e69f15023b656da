//! Elements: their types, values and bytes.

/// A type of 01's table, by its code 1 to 10.
#[derive(Clone, Copy, Debug, PartialEq, Eq)]
pub struct Type {
    pub name: &'static str,
    pub width: usize,
    pub form: Form,
}

#[derive(Clone, Copy, Debug, PartialEq, Eq)]
pub enum Form {
    Unsigned,
    Signed,
    Float,
}

/// 01's table, field 1, in its order.
pub const TYPES: [Type; 10] = [
    Type { name: "UnsignedByte", width: 1, form: Form::Unsigned },
    Type { name: "SignedByte", width: 1, form: Form::Signed },
    Type { name: "UnsignedShort", width: 2, form: Form::Unsigned },
    Type { name: "SignedShort", width: 2, form: Form::Signed },
    Type { name: "UnsignedInteger", width: 4, form: Form::Unsigned },
    Type { name: "SignedInteger", width: 4, form: Form::Signed },
    Type { name: "FloatIEEE32", width: 4, form: Form::Float },
    Type { name: "Unsigned64", width: 8, form: Form::Unsigned },
    Type { name: "Signed64", width: 8, form: Form::Signed },
    Type { name: "FloatIEEE64", width: 8, form: Form::Float },
];

/// 01's table, field 2, in its order.
pub const BYTE_ORDERS: [&str; 2] = ["HighByteFirst", "LowByteFirst"];

/// The type of a code 1 to 10.
pub fn type_of(code: u8) -> Option<Type> {
    TYPES.get(usize::from(code).checked_sub(1)?).copied()
}

/// The bytes with the high byte first, from (or to) a byte order's code.
pub fn ordered(bytes: &[u8], order: u8) -> Vec<u8> {
    match order {
        2 => bytes.iter().rev().copied().collect(),
        _ => bytes.to_vec(),
    }
}

/// The value of bytes, high byte first, as bits from 0.
fn unsigned_value(high_first: &[u8]) -> i128 {
    high_first.iter().rev().zip(0u32..).map(|(&byte, place)| i128::from(byte) * 256i128.pow(place)).sum()
}

/// The value of an element, for floats its bits.
pub fn value_of_bytes(kind: Type, high_first: &[u8]) -> i128 {
    let bits = unsigned_value(high_first);
    match kind.form == Form::Signed && bits > range(kind).1 {
        true => bits - span_of_values(kind),
        false => bits,
    }
}

/// The bytes of a value, high byte first.
pub fn bytes_of_value(kind: Type, value: i128) -> Vec<u8> {
    let bits = value.rem_euclid(span_of_values(kind));
    let places = (0..kind.width as u32).rev();
    places.map(|place| (bits / 256i128.pow(place) % 256) as u8).collect()
}

/// How many values a type has.
fn span_of_values(kind: Type) -> i128 {
    256i128.pow(kind.width as u32)
}

/// The least and greatest value of a type.
fn range(kind: Type) -> (i128, i128) {
    let all = span_of_values(kind);
    match kind.form {
        Form::Signed => (-all / 2, all / 2 - 1),
        _ => (0, all - 1),
    }
}

/// "For integer types the offset is added last and the result set to the nearest value of the type.
/// Floats are moved as bits."
pub fn shifted(kind: Type, value: i128, offset: i64) -> i128 {
    let (least, greatest) = range(kind);
    match kind.form {
        Form::Float => value,
        _ => (value + i128::from(offset)).clamp(least, greatest),
    }
}

#[cfg(test)]
mod tests {
    use super::*;

    #[test]
    fn examples_of_offsets() {
        assert_eq!(shifted(TYPES[2], 65_530, 10), 65_535);
        assert_eq!(shifted(TYPES[0], 3, -5), 0);
    }

    #[test]
    fn nearest_values() {
        assert_eq!(shifted(TYPES[1], -128, -1), -128);
        assert_eq!(shifted(TYPES[1], 127, 1), 127);
        assert_eq!(shifted(TYPES[7], (1 << 64) - 1, i64::MAX), (1 << 64) - 1);
        assert_eq!(shifted(TYPES[7], 5, i64::MIN), 0);
        assert_eq!(shifted(TYPES[8], i128::from(i64::MIN), i64::MIN), i128::from(i64::MIN));
        assert_eq!(shifted(TYPES[8], i128::from(i64::MIN), i64::MAX), -1);
    }

    #[test]
    fn widths() {
        let widths: Vec<usize> = TYPES.iter().map(|t| t.width).collect();
        assert_eq!(widths, [1, 1, 2, 2, 4, 4, 4, 8, 8, 8]);
        assert_eq!(type_of(0), None);
        assert_eq!(type_of(10).map(|t| t.name), Some("FloatIEEE64"));
        assert_eq!(type_of(11), None);
    }

    #[test]
    fn bytes_and_values() {
        assert_eq!(value_of_bytes(TYPES[2], &[1, 2]), 258);
        assert_eq!(value_of_bytes(TYPES[3], &[0xff, 0xfe]), -2);
        assert_eq!(value_of_bytes(TYPES[3], &[0x7f, 0xff]), 32_767);
        assert_eq!(value_of_bytes(TYPES[3], &[0x80, 0]), -32_768);
        for kind in TYPES {
            for seed in [0u8, 1, 127, 128, 255] {
                let bytes: Vec<u8> = (0..kind.width as u8).map(|i| seed.wrapping_add(i * 17)).collect();
                assert_eq!(bytes_of_value(kind, value_of_bytes(kind, &bytes)), bytes);
            }
        }
    }

    #[test]
    fn byte_orders() {
        assert_eq!(ordered(&[1, 2, 3], 1), [1, 2, 3]);
        assert_eq!(ordered(&[1, 2, 3], 2), [3, 2, 1]);
    }
}
