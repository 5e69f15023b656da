//! The examples of 01, "Examples both sides", one by one, by the second reader and by the library; and those of FORMAT.md for the real
//! numbers of 02, No. 2, and the whitespace of 02, No. 4. Listings have the letters of 02, No. 1.

use edf_tests::both::*;
use edf_tests::files::{array, padded};
use edf_tests::reader::{orders, Error, Frame, Pixel, Real};

fn opened(file: &[u8]) -> (u8, usize) {
    open(file, 256).map_or_else(|e| (e.code, e.position), |_| (0, 0))
}

#[test]
fn arrays_of_3_by_2() {
    let examples = [(2, [3, 2, 1, 6, 5, 4]), (5, [1, 4, 2, 5, 3, 6]), (6, [3, 6, 2, 5, 1, 4]), (7, [4, 1, 5, 2, 6, 3])];
    for (number, stored) in examples {
        let fields = format!("DataType=UnsignedByte;Dim_1=3;Dim_2=2;DataRasterConfiguration={number};");
        assert_eq!(read_array(&array(&fields, &stored), 0, 1, 6), Ok(vec![1, 2, 3, 4, 5, 6]));
    }
}

#[test]
fn configurations_of_three_indices() {
    assert_eq!(orders::order_of(3, 17), Some(vec![1, 3, 2]));
    assert_eq!(orders::order_of(3, 48), Some(vec![-3, -2, -1]));
    let fields = "DataType=UnsignedByte;Dim_1=1;Dim_2=1;Dim_3=1;DataRasterConfiguration=49;";
    assert_eq!(describe(&array(fields, &[0]), 0), Err(Error { code: 18, position: 5 }));
}

#[test]
fn offsets() {
    let short = array("DataType=UnsignedShort;Dim_1=1;DataValueOffset=10;", &65_530u16.to_be_bytes());
    assert_eq!(read_pixel(&short, 0, 0, 0, 0), Ok(Pixel::Unsigned(65_535)));
    let byte = array("DataType=UnsignedByte;Dim_1=1;DataValueOffset=-5;", &[3]);
    assert_eq!(read_pixel(&byte, 0, 0, 0, 0), Ok(Pixel::Unsigned(0)));
}

#[test]
fn texts() {
    let values = array("a=a\\:b;b=\\\";", &[]);
    assert_eq!(text(&values, 0, b"a", 3), Ok(b"a;b".to_vec()));
    assert_eq!(text(&values, 0, b"b", 0), Ok(vec![]));
    assert_eq!(escape(b"x;", 5), Ok(b"\"x\\:\"".to_vec()));
}

fn real_of(value: &str) -> Result<Real, u8> {
    real(&array(&format!("w={value};"), &[]), 0, b"w").map_err(|e| e.code)
}

#[test]
fn reals() {
    assert_eq!(real_of("32.5_deg"), Ok(Real::Degrees(32.5)));
    assert_eq!(real_of("9007199254740992"), Ok(Real::Number(9_007_199_254_740_992.0)));
    assert_eq!(real_of("1801439850948199e1"), Ok(Real::Number(18_014_398_509_481_992.0)));
    assert!(matches!(real_of("-0"), Ok(Real::Number(zero)) if zero.to_bits() == 1 << 63));
    assert_eq!((real_of(".5"), real_of("5."), real_of("5.e1_m")), (Ok(Real::Number(0.5)), Ok(Real::Number(5.0)), Ok(Real::Metres(50.0))));
    for value in ["1E5", "1_km", "1m", ".", "1e", "1 _m", "1e9223372036854775808"] {
        assert_eq!(real_of(value), Err(18), "{value}");
    }
}

#[test]
fn bounds_of_reals() {
    let zeros = "0".repeat(40);
    let inside = [("1e22", 1e22), ("0.1e23", 1e22), ("1.5e23", 1.5e23), ("10e22", 1e23), ("1.000000000000000", 1.0)];
    for (value, expected) in inside {
        assert_eq!(real_of(value), Ok(Real::Number(expected)), "{value}");
    }
    assert_eq!(real_of(&format!("{zeros}1.5")), Ok(Real::Number(1.5)));
    for value in ["1e23", "0e23", "1.5e-22", "9007199254740993", "1.0000000000000000", "0.00000000000000000000000"] {
        assert_eq!(real_of(value), Err(27), "{value}");
    }
}

#[test]
fn files() {
    let header = |length: usize| padded("EDF_DataBlockID=1.Image.Psd;", length);
    assert_eq!(opened(b""), (3, 0));
    assert_eq!(opened(&header(512)), (0, 0));
    assert_eq!(opened(&header(511)), (11, 0));
    assert_eq!(opened(&header(65_536)), (0, 0));
    assert_eq!(opened(&header(66_048)), (5, 0));
    assert_eq!(opened(&padded("EDF_DataBlockID=1.Image.Psd.1;", 512)), (9, 0));
    assert_eq!(opened(&padded("EDF_DataBlockID=1.Image.Psd;EDF_BinarySize=1;", 512)), (12, 0));
}

/// "white may stand before the first header, between blocks and after the last, in no row; a header starts at its brace, and its length need be
/// no multiple of anything": 02, No. 4.
#[test]
fn whitespace_in_kind_1() {
    let rows = |file: &[u8]| open(file, 256).map(|rows| rows.iter().map(|row| (row.start, row.header_length, row.data_length)).collect());
    assert_eq!(rows(&[b"\n", &padded("", 511)[..]].concat()), Ok(vec![(1, 511, 0)]));
    assert_eq!(rows(b" {Size=2;}\n   {}\n\t"), Ok(vec![(1, 10, 2), (14, 3, 0)]));
    assert_eq!(rows(b" {EDF_DataBlockID=1.Image.Psd;}\n"), Err(Error { code: 3, position: 0 }));
    assert_eq!(rows(b" \n "), Err(Error { code: 3, position: 3 }));
    let mut file = b"{}\n".repeat(256);
    file.push(b' ');
    assert_eq!(opened(&file), (0, 0));
    file.push(b'x');
    assert_eq!(opened(&file), (14, 769));
}

#[test]
fn listing_of_the_writers_file() {
    let frame = Frame {
        sequence: 1, instance: 1, memory: 1, data_type: 3, order: 1, n: 2, dim_1: 3, dim_2: 2, dim_3: 0, configuration: 6,
    };
    let written = write(frame, b"x;", &[0, 1, 0, 2, 0, 3, 0, 4, 0, 5, 0, 6], 1_024).unwrap();
    let expected = "blocks 1\n0 0 512 512 1.Image.Psd UnsignedShorto HighByteFirsto 3x2o 6o 1d 0d\n";
    assert_eq!(list(&written, expected.len()), Ok(expected.as_bytes().to_vec()));
}

/// "Slips to catch".
#[test]
fn slips() {
    let pixels = array("DataType=UnsignedByte;Dim_1=4;", b"}\n}\n");
    assert_eq!(read_array(&pixels, 0, 1, 4), Ok(b"}\n}\n".to_vec()));
    assert_eq!(opened(&padded("a=};", 512)), (5, 0));
    for (field, fields) in [(1, "DataType=x;"), (2, "ByteOrder=x;"), (3, "Compression=x;")] {
        assert_eq!(describe(&array(fields, &[]), 0), Err(Error { code: 17, position: field }));
    }
    let late = [padded("EDF_DataBlockID=1.Image.Psd;Title=;EDF_BinarySize=1;", 512), vec![0]].concat();
    assert_eq!(opened(&late), (3, 512));
}
