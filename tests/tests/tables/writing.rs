//! The writer: "Writing". Files byte for byte, what they read back as, and each argument just good and just bad.

use edf_tests::answer::Call;
use edf_tests::both::{escape, text, write};
use edf_tests::reader::{Error, Frame};
use edf_tests::told::expect;

/// 1.Image.Psd, UnsignedShort, HighByteFirst, 3 by 2, configuration 6.
const FRAME: Frame = Frame {
    sequence: 1, instance: 1, memory: 1, data_type: 3, order: 1, n: 2, dim_1: 3, dim_2: 2, dim_3: 0, configuration: 6,
};

const PIXELS: [u8; 12] = [0, 1, 0, 2, 0, 3, 0, 4, 0, 5, 0, 6];

/// A header of these lines, filled with spaces to 512 bytes.
fn header(lines: &[&str]) -> Vec<u8> {
    let mut header = format!("{{\r\n{}\r\n", lines.join("\r\n")).into_bytes();
    header.resize(508, b' ');
    header.extend(b"\r\n}\n");
    header
}

#[test]
fn the_file_byte_for_byte() {
    let lines = [
        "EDF_DataBlockID = 1.Image.Psd ;",
        "EDF_BinarySize = 512 ;",
        "ByteOrder = HighByteFirst ;",
        "DataType = UnsignedShort ;",
        "Dim_1 = 3 ;",
        "Dim_2 = 2 ;",
        "DataRasterConfiguration = 6 ;",
        "Title = \"x\\:\" ;",
    ];
    let mut expected = [header(&lines), vec![0, 3, 0, 6, 0, 2, 0, 5, 0, 1, 0, 4]].concat();
    expected.resize(1_024, 0);
    assert_eq!(write(FRAME, b"x;", &PIXELS, 1_024), Ok(expected.clone()));
    expect(&expected, Call::Describe { block: 0 }, "3 1 1 2 3 2 1 6 1 0 oodoodd");
    expect(&expected, Call::ReadArray { block: 0, order: 1, room: 14 }, "0 1 0 2 0 3 0 4 0 5 0 6");
    expect(&expected, Call::ReadPixel { block: 0, i1: 2, i2: 0, i3: 0 }, "unsigned 3");
    expect(&expected, Call::ReadPixel { block: 0, i1: 0, i2: 1, i3: 0 }, "unsigned 4");
    assert_eq!(text(&expected, 0, b"Title", 4), Ok(b"x;".to_vec()));
}

/// Every field of its own, and numbers at the ends of their ranges.
#[test]
fn another_file_byte_for_byte() {
    let frame = Frame {
        sequence: i64::MIN, instance: 2, memory: i64::MAX, data_type: 9, order: 2, n: 3, dim_1: 1, dim_2: 1, dim_3: 1, configuration: 48,
    };
    let lines = [
        "EDF_DataBlockID = -9223372036854775808.Image.Error.9223372036854775807 ;",
        "EDF_BinarySize = 512 ;",
        "ByteOrder = LowByteFirst ;",
        "DataType = Signed64 ;",
        "Dim_1 = 1 ;",
        "Dim_2 = 1 ;",
        "Dim_3 = 1 ;",
        "DataRasterConfiguration = 48 ;",
        "Title = \"\" ;",
    ];
    let mut expected = [header(&lines), vec![8, 7, 6, 5, 4, 3, 2, 1]].concat();
    expected.resize(1_024, 0);
    assert_eq!(write(frame, b"", &[1, 2, 3, 4, 5, 6, 7, 8], 1_024), Ok(expected));
}

/// The length of the file, or the code.
fn outcome(frame: Frame, title: &[u8], pixels: &[u8], room: usize) -> Result<usize, u8> {
    write(frame, title, pixels, room).map(|file| file.len()).map_err(|error| {
        assert_eq!(error, Error { code: error.code, position: 0 });
        error.code
    })
}

#[test]
fn codes_and_identities() {
    let table = [
        (Frame { data_type: 0, ..FRAME }, Err(24)),
        (Frame { data_type: 4, ..FRAME }, Ok(1_024)),
        (Frame { data_type: 11, ..FRAME }, Err(24)),
        (Frame { order: 0, ..FRAME }, Err(24)),
        (Frame { order: 2, ..FRAME }, Ok(1_024)),
        (Frame { order: 3, ..FRAME }, Err(24)),
        (Frame { n: 0, ..FRAME }, Err(24)),
        (Frame { n: 4, ..FRAME }, Err(24)),
        (Frame { configuration: 0, ..FRAME }, Err(24)),
        (Frame { configuration: 8, ..FRAME }, Ok(1_024)),
        (Frame { configuration: 9, ..FRAME }, Err(24)),
        (Frame { instance: 0, ..FRAME }, Err(24)),
        (Frame { instance: 2, ..FRAME }, Ok(1_024)),
        (Frame { instance: 3, ..FRAME }, Err(24)),
        (Frame { memory: 0, ..FRAME }, Err(24)),
        (Frame { memory: -1, ..FRAME }, Err(24)),
    ];
    for (frame, expected) in table {
        assert_eq!(outcome(frame, b"", &PIXELS, 4_096), expected, "{frame:?}");
    }
}

#[test]
fn sizes_and_rooms() {
    let table: [(usize, usize, &[u8], usize, Result<usize, u8>); 9] = [
        (6, 1, &PIXELS, 4_096, Ok(1_024)),
        (7, 1, &PIXELS, 4_096, Err(24)),
        (6, 1, &PIXELS[..11], 4_096, Err(24)),
        (0, 2, b"", 4_096, Err(24)),
        (3, 1_048_577, &PIXELS, 4_096, Err(24)),
        (1_048_576, 1_048_576, &PIXELS, 4_096, Err(24)),
        (3, 2, &PIXELS, 1_024, Ok(1_024)),
        (3, 2, &PIXELS, 1_023, Err(22)),
        (3, 2, &PIXELS, 0, Err(22)),
    ];
    for (dim_1, dim_2, pixels, room, expected) in table {
        assert_eq!(outcome(Frame { dim_1, dim_2, ..FRAME }, b"", pixels, room), expected, "{dim_1} {dim_2} {room}");
    }
}

#[test]
fn titles() {
    let (longest, longer) = ([b';'; 1_023], [b';'; 1_024]);
    let table: [(&[u8], Result<usize, u8>); 6] = [
        (b"\x01", Ok(1_024)),
        (b"\x7f", Ok(1_024)),
        (b"\x80", Err(24)),
        (b"\0", Err(24)),
        (&longest, Ok(3_072)),
        (&longer, Err(25)),
    ];
    for (title, expected) in table {
        assert_eq!(outcome(FRAME, title, &PIXELS, 4_096), expected, "{title:?}");
        assert_eq!(escape(title, 4_096).map(|_| ()).map_err(|error| error.code), expected.map(|_| ()));
    }
}
