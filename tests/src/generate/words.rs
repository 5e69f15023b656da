//! Words and numerals at both sides of the rules.

use super::random::Random;

pub const TYPES: [&str; 10] = [
    "UnsignedByte", "SignedByte", "UnsignedShort", "SignedShort", "UnsignedInteger", "SignedInteger", "FloatIEEE32",
    "Unsigned64", "Signed64", "FloatIEEE64",
];

/// The type of an array that has no DataType.
pub const DEFAULT_TYPE: &str = "FloatIEEE32";

pub const WIDTHS: [usize; 10] = [1, 1, 2, 2, 4, 4, 4, 8, 8, 8];

pub const UNKNOWN_WORDS: [&str; 16] = [
    "UnsignedLong", "SignedLong", "FloatValue", "DoubleValue", "Unsigned16", "Float", "unsignedshort", "UnsignedShor",
    "UnsignedShorts", "Unsigned Short", "BigEndian", "highbytefirst", "UnCompressed", "Gzip", "none", "",
];

pub const KNOWN_WORDS: [&str; 4] = ["HighByteFirst", "LowByteFirst", "None", "UnsignedByte"];

/// Forms of a number that are all the same number.
pub fn numeral(random: &mut Random, number: i64) -> String {
    let zeros = "0".repeat(random.pick(&[0, 0, 0, 1, 2, 30]));
    let digits = format!("{zeros}{}", number.unsigned_abs());
    match (number < 0, random.below(6)) {
        (true, _) => format!("-{digits}"),
        (false, 0) => format!("+{digits}"),
        (false, 1) if number == 0 => format!("-{digits}"),
        (false, 2..=5) => number.to_string(),
        _ => digits,
    }
}

/// Numerals at the edges, and what is no number.
pub const ODD_NUMERALS: [&str; 30] = [
    "9223372036854775807", "9223372036854775808", "-9223372036854775808", "-9223372036854775809", "18446744073709551616",
    "00000000000000000000000000000001", "99999999999999999999999999999999999999999999", "+1", "01", "-0", "+0", "-1", "",
    "+", "-", "+-1", "1 2", "1\t", "1.0", "1.", "0x1", "1e3", "1_m", "Undetermined", "undetermined", "0", "2", "\"1\"",
    "\" 1\"", "1\r\n2",
];

pub const IDENTITIES: [&str; 26] = [
    "1.Image.Psd", "1.Image.Psd.1", "1.Image.Psd.2", "1.Image.Psd.0", "1.Image.Psd.-2", "1.Image.Psd.+2", "1.Image.Psd.02",
    "1.Image.Psd.", "1.Image.Psd.2.3", "1.image.Psd", "1.Image.psd", "1.Image.PSD", "1.Image.Error", "1.Image.Error.3",
    "1.Image.Mask", "1.Image", "1", "", ".Image.Psd", "+1.Image.Psd", "-1.Image.Psd", "9223372036854775808.Image.Psd",
    "9223372036854775807.Image.Psd", "1. Image.Psd", "1.Image.Psd.9223372036854775807", "1.Image.Psd.9223372036854775808",
];

pub const VERSIONS: [&str; 18] = [
    "2.42", "1.00", "0.42", "00.42", "002.42", "10.00", "2.4", "2.423", "2", ".42", "+2.42", "2.42.", "2.4x", "a.42", "",
    "2..4", "99999999999999999999.00", "2 .42",
];

/// The keys of the described fields.
pub const FIELDS: [&str; 9] = [
    "DataType", "ByteOrder", "Compression", "Dim_1", "Dim_2", "Dim_3", "DataRasterConfiguration", "RasterOrientation", "DataValueOffset",
];

/// Fields with the values that they have where they are absent; for a Dim no value can be written that says the same.
pub const DEFAULTS: [(&str, &str); 6] = [
    ("DataType", DEFAULT_TYPE), ("ByteOrder", "HighByteFirst"), ("Compression", "None"), ("DataRasterConfiguration", "1"),
    ("RasterOrientation", "1"), ("DataValueOffset", "0"),
];

pub const KEYS: [&str; 24] = [
    "DataType", "ByteOrder", "Compression", "Dim_1", "Dim_2", "Dim_3", "Dim_4", "DataRasterConfiguration",
    "RasterOrientation", "DataValueOffset", "Title", "Size", "EDF_DataBlockID", "EDF_BinarySize", "EDF_HeaderSize",
    "EDF_DataBlocks", "EDF_BlockBoundary", "EDF_DataFormatVersion", "EDF_BinaryFileName", "Image", "HeaderID", "Note", "edf_", "edf",
];

/// Keys whose values are texts of reals.
pub const REAL_KEYS: [&str; 3] = ["Wavelength", "SampleDistance", "Rot_1"];
