//! Keywords as real numbers: forms, units, bounds, and how they are shown.

use edf::{Code, File, Real, Unit};

fn block(statements: &str) -> Vec<u8> {
    format!("{{ {statements:<507} }}\n").into_bytes()
}

/// The answer for a value: in Ok the number with the bits of its value, in Err code and position.
fn answer(value: &str) -> Result<(Real, u64), (Code, usize)> {
    let bytes = block(&format!("w = {value} ;"));
    let real = File::open(&bytes).unwrap().block(0).unwrap().real("W");
    real.map(|real| (real, real.value().to_bits())).map_err(|error| (error.code(), error.position()))
}

#[test]
fn forms_and_units() {
    for (written, expected) in [
        ("32.5_deg", Real::Degrees(32.5)),
        ("9.82514_m", Real::Metres(9.82514)),
        ("-1.5_rad", Real::Radians(-1.5)),
        ("9.90376e-11", Real::Number(9.90376e-11)),
        ("0.000343", Real::Number(0.000343)),
        ("-0", Real::Number(-0.0)),
        ("+0", Real::Number(0.0)),
        ("-.0_deg", Real::Degrees(-0.0)),
        ("-0e5_m", Real::Metres(-0.0)),
        (".5", Real::Number(0.5)),
        ("5.", Real::Number(5.0)),
        ("5.e1_m", Real::Metres(50.0)),
        ("1e+5", Real::Number(1e5)),
        ("9007199254740992e-22", Real::Number(9007199254740992e-22)),
        ("10e22", Real::Number(1e23)),
        ("0.1e23_rad", Real::Radians(1e22)),
    ] {
        assert_eq!(answer(written), Ok((expected, expected.value().to_bits())), "{written}");
    }
}

#[test]
fn refusals() {
    for written in ["", ".", ".e1", "1e", "1e+", "+_m", "1E5", "1_M", "1_mm", "1_", "1m", "1 _m", "1,5", "inf", "nan", "0x1", "1e9223372036854775808"] {
        assert_eq!(answer(written), Err((Code::BadNumber, 0)), "{written}");
    }
    for written in ["1e23", "0e23", "1.5e-22", "1e-23", "9007199254740993", "1.0000000000000000", "1e9223372036854775807_deg"] {
        assert_eq!(answer(written), Err((Code::OutOfBounds, 0)), "{written}");
    }
    let bytes = block("w = 1e23 ;");
    let file = File::open(&bytes).unwrap();
    let error = file.block(0).unwrap().real("w").unwrap_err();
    assert_eq!((error.number(), error.field()), (27, None));
    let words = "number outside the bounds: digits over 9,007,199,254,740,992 or a power of ten outside -22 to 22";
    assert_eq!(error.to_string(), format!("error 27 at 0: {words}"));
    assert_eq!(file.block(0).unwrap().real("v").unwrap_err().code(), Code::NotFound);
}

/// Numbers of the general header, of a block's own, and of blocks that are looked at by themselves.
#[test]
fn blocks() {
    let general = block("EDF_DataFormatVersion = 2.42 ; EDF_DataBlocks = 2 ; Wave Length = 1.5e-10_m ;");
    let data = |sequence: u8, own: &str| block(&format!("EDF_DataBlockID = {sequence}.Image.Psd ; EDF_BinarySize = 0 ; {own}"));
    let bytes = [general, data(1, "WaveLength = 2_m ;"), data(2, "")].concat();
    let file = File::open(&bytes).unwrap();
    let wavelengths: Vec<_> = file.blocks().map(|block| block.real("wavelength")).collect();
    assert_eq!(wavelengths, [Ok(Real::Metres(1.5e-10)), Ok(Real::Metres(2.0)), Ok(Real::Metres(1.5e-10))]);
    let bytes = [data(1, "Tilt = 1_deg ;"), data(2, "Tilt = 2_rad ;")].concat();
    let file = File::open(&bytes).unwrap();
    let tilts: Vec<_> = file.blocks().map(|block| block.real("TILT").unwrap()).collect();
    assert_eq!(tilts, [Real::Degrees(1.0), Real::Radians(2.0)]);
}

#[test]
fn units() {
    let units = [Unit::Metres, Unit::Degrees, Unit::Radians];
    assert_eq!(units.map(Unit::name), ["m", "deg", "rad"]);
    assert_eq!(units.map(|unit| unit.to_string()), ["m", "deg", "rad"]);
    let reals = [Real::Number(1.0), Real::Metres(1.0), Real::Degrees(1.0), Real::Radians(1.0)];
    assert_eq!(reals.map(Real::unit), [None, Some(Unit::Metres), Some(Unit::Degrees), Some(Unit::Radians)]);
}

#[test]
fn shown() {
    for (real, expected) in [
        (Real::Degrees(32.5), "32.5_deg"),
        (Real::Metres(1.5e-10), "1.5e-10_m"),
        (Real::Radians(-0.0), "-0_rad"),
        (Real::Number(0.0), "0"),
        (Real::Number(-0.0), "-0"),
        (Real::Number(100.0), "100"),
        (Real::Number(0.1), "0.1"),
        (Real::Number(1e-5), "0.00001"),
        (Real::Number(9.999999999999999e-6), "9.999999999999999e-6"),
        (Real::Number(9999999999999998.0), "9999999999999998"),
        (Real::Number(-1e16), "-1e16"),
        (Real::Number(9007199254740992e22), "9.007199254740992e37"),
        (Real::Number(1e-22), "1e-22"),
    ] {
        assert_eq!(real.to_string(), expected);
    }
    assert_eq!(format!("{:>9}|{:<9}|", Real::Metres(0.5), Real::Number(2.0)), "    0.5_m|2        |");
}

/// Digits and powers of ten all over the bounds. What the library reads is what Rust reads in the same text; what is shown is read as the
/// same bits again, and has no more digits than what was written.
#[test]
fn shown_reads_back() {
    let mut digits = vec![0, 1, 2, 3, 5, 7, 9, 10, 123, 999_999, 9_007_199_254_740_991, 9_007_199_254_740_992];
    let mut state: u64 = 42;
    for bits in (1..=53).flat_map(|bits| [bits; 4]) {
        state = state.wrapping_mul(6_364_136_223_846_793_005).wrapping_add(1_442_695_040_888_963_407);
        digits.push(state >> (64 - bits));
    }
    for digits in &digits {
        for power in -22..=22 {
            let written = format!("-{digits}e{power}");
            let (real, bits) = answer(&written).expect(&written);
            assert_eq!(bits, written.parse::<f64>().unwrap().to_bits(), "{written}");
            let shown = real.to_string();
            assert_eq!(shown.parse::<f64>().map(f64::to_bits), Ok(bits), "{written} {shown}");
            let significant = |text: &str| text.split('e').next().unwrap().replace(['-', '.'], "").trim_matches('0').len();
            assert!(significant(&shown) <= significant(&written), "{written} {shown}");
        }
    }
}

#[test]
fn a_file_of_fabio() {
    let path = concat!(env!("CARGO_MANIFEST_DIR"), "/../../tests/fixtures/fabio_hdr_saxs.edf");
    let bytes = std::fs::read(path).unwrap();
    let block = File::open(&bytes).unwrap().block(0).unwrap();
    let reals = ["SampleDistance", "WaveLength", "PSize_1", "Center_1"].map(|key| block.real(key).unwrap().to_string());
    assert_eq!(reals, ["9.82514_m", "9.90376e-11", "0.000343", "269"]);
    assert_eq!(block.real("Title").unwrap_err().code(), Code::BadNumber);
}
