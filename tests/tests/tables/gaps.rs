//! Gaps: 02, No. 4. Whitespace in kind 1, start patterns in kind 2, and the first header while the kind is not known.

use edf_tests::answer::Call;
use edf_tests::files::{data, padded};
use edf_tests::told::expect;

fn opens(file: &[u8], expected: &str) {
    expect(file, Call::Open { rows: 256 }, expected);
}

fn opens_all(table: &[(&str, &str)]) {
    for (file, expected) in table {
        opens(file.as_bytes(), expected);
    }
}

/// The six bytes of whitespace, and bytes beside them.
const WHITE: [u8; 6] = [9, 10, 11, 12, 13, 32];
const NEAR: [u8; 9] = [0, 1, 8, 14, 31, 33, 127, 128, 160];

/// Each of the six bytes at each place is in no row; another byte is refused where it stands.
#[test]
fn every_byte_at_every_place() {
    for byte in WHITE {
        let gap = [byte];
        opens(&[&gap[..], b"{}\n"].concat(), "1 3 0 1 0 0 0");
        opens(&[b"{}\n", &gap[..], b"{}\n"].concat(), "0 3 0 1 0 0 0 | 4 3 0 1 0 0 0");
        opens(&[b"{}\n", &gap[..]].concat(), "0 3 0 1 0 0 0");
        opens(&gap, "refused 3 1");
    }
    for byte in NEAR {
        let gap = [b' ', byte, b' '];
        opens(&[&gap[..], b"{}\n"].concat(), "refused 3 1");
        opens(&[b"{}\n", &gap[..], b"{}\n"].concat(), "refused 3 4");
        opens(&[b"{}\n", &gap[..]].concat(), "refused 3 4");
        opens(&gap, "refused 3 1");
    }
}

/// Kind 1: gaps, headers of any length, data that is whitespace, EDF_ keys that are ignored.
#[test]
fn kind_1() {
    opens_all(&[
        ("{}\n", "0 3 0 1 0 0 0"),
        ("{}\r\n", "0 4 0 1 0 0 0"),
        ("{ }\n{  }\n", "0 4 0 1 0 0 0 | 4 5 0 1 0 0 0"),
        (" \t\r\n\x0b\x0c{}\n", "6 3 0 1 0 0 0"),
        ("\n\n\n{}\n\n\n\n{}\n\n\n\n", "3 3 0 1 0 0 0 | 9 3 0 1 0 0 0"),
        ("{}\r\n\r\n{}\r\n", "0 4 0 1 0 0 0 | 6 4 0 1 0 0 0"),
        ("{Size=2;}\n   {}\n", "0 10 2 1 0 0 0 | 13 3 0 1 0 0 0"),
        ("{Size=3;}\n   {}\n", "0 10 3 1 0 0 0 | 13 3 0 1 0 0 0"),
        ("{Size=4;}\n   {}\n", "refused 3 14"),
        ("{Size=2;}\n   ", "0 10 2 1 0 0 0"),
        ("{Size=4;}\n   ", "refused 12 0"),
        ("{Size=2;}\n{}\n", "0 10 2 1 0 0 0"),
        ("{Size=1;}\n{}\n", "refused 3 11"),
        ("{Size=2;}\n{} {}\n", "0 10 2 1 0 0 0 | 13 3 0 1 0 0 0"),
        ("{a=;EDF_HeaderSize=99;}\n", "0 24 0 1 0 0 0"),
        ("{a=;EDF_HeaderSize=x;}\n", "0 23 0 1 0 0 0"),
        ("{a=;EDF_BlockBoundary=7;}\n{EDF_HeaderSize=1;}\n", "0 26 0 1 0 0 0 | 26 20 0 1 0 0 0"),
        ("{}\n {EDF_DataBlockID=1.Image.Psd;}\n\t", "0 3 0 1 0 0 0 | 4 31 0 1 0 0 0"),
    ]);
}

/// Kind 1: what is refused after whitespace, and where.
#[test]
fn positions_in_kind_1() {
    let long = "k".repeat(65);
    opens_all(&[
        ("{}", "refused 5 0"),
        ("{} \n", "refused 5 0"),
        ("{}\n x", "refused 3 4"),
        ("{}\n\0{}\n", "refused 3 3"),
        ("{}\n }\n", "refused 3 4"),
        ("{}\n {", "refused 5 4"),
        ("{}\n {a\0}\n", "refused 4 6"),
        ("{}\n \n{a;}\n", "refused 6 5"),
        (&format!("{{}}\n \t{{{long}=;}}\n"), "refused 7 5"),
        (&format!(" {{{long}=;}}\n"), "refused 7 1"),
        ("\n{a=;A=;}\n", "refused 8 1"),
        ("{}\n\n{a=;A=;}\n", "refused 8 4"),
        ("\r\n{Size=x;}\n", "refused 9 2"),
        ("{}\n {Size=-1;}\n", "refused 9 4"),
        ("\t{Size=1;}\n", "refused 12 1"),
        ("{}\n\t{Size=2;}\n ", "refused 12 4"),
        ("{}\n\t{Size=1;}\n ", "0 3 0 1 0 0 0 | 4 10 1 1 0 0 0"),
    ]);
}

/// The kind is not known before the first header has passed check 6: positions are counted from the brace, also where the text is of kind 2.
#[test]
fn before_the_kind_is_known() {
    opens_all(&[
        ("", "refused 3 0"),
        (" \n ", "refused 3 3"),
        ("  x", "refused 3 2"),
        ("\n", "refused 3 1"),
        ("\r\n", "refused 3 2"),
        ("\n{", "refused 5 1"),
        ("\r\n{EDF_DataBlockID=1.Image.Psd;}", "refused 5 2"),
        ("\r\n{EDF_DataBlockID=1.Image.Psd;} \n", "refused 5 2"),
        (" \n{EDF_DataBlockID=1.Image.Psd;}", "refused 5 2"),
        ("\n{a=\0;}\n", "refused 4 4"),
        ("\n{EDF_x=\0;}\n", "refused 4 8"),
        (" {EDF_x={;}\n", "refused 4 8"),
        ("\r\n{x}\n", "refused 6 2"),
        ("\r\n{EDF_x=;x}\n", "refused 6 2"),
        (" {EDF_x=;y;}\n", "refused 6 1"),
        ("\n\n{EDF_x=;=;}\n", "refused 6 2"),
    ]);
}

/// A first header that proves to be of kind 2: 3 at 0 without a start pattern, before 7, 8 and 9. With one the start is 0 from there on.
#[test]
fn a_first_header_of_kind_2() {
    let long = "k".repeat(65);
    opens_all(&[
        (" {EDF_x=;edf_X=;}\n", "refused 3 0"),
        ("\t{EDF_x=;}\n", "refused 3 0"),
        (&format!("\r{{EDF_{long}=;}}\n"), "refused 3 0"),
        ("\n\n{EDF_x=;}\n", "refused 3 0"),
        ("\n\r\n{EDF_x=;}\n", "refused 3 0"),
        ("\r\n{EDF_x=;}\n", "refused 9 0"),
        ("\n{EDF_x=;edf_X=;}\n", "refused 8 0"),
        (&format!("\n{{EDF_{long}=;}}\n"), "refused 7 0"),
        ("\n{EDF_DataBlockID=1.Image.Psd;EDF_BinaryFileName=x;}\n", "refused 10 0"),
        ("\n{EDF_DataBlockID=1.Image.Psd;}\n", "refused 11 0"),
        ("\r\n{EDF_DataFormatVersion=1.00;EDF_DataBlocks=1;}\n", "refused 11 0"),
    ]);
    let of_512 = |lead: &str, body: &str| [lead.as_bytes(), &padded(body, 512 - lead.len())].concat();
    for lead in ["", "\n", "\r\n"] {
        opens(&of_512(lead, "EDF_DataBlockID=1.Image.Psd;"), "0 512 0 1 1 1 1");
        opens(&of_512(lead, "EDF_DataBlockID=1.Image.Psd;EDF_HeaderSize=512;"), "0 512 0 1 1 1 1");
        opens(&of_512(lead, "EDF_DataBlockID=1.Image.Psd;EDF_HeaderSize=510;"), "refused 11 0");
        opens(&of_512(lead, "EDF_DataBlockID=1.Image.Psd;EDF_BinarySize=1;"), "refused 12 0");
    }
    for lead in [" ", "\t", "\r", "\x0b", "\x0c", "\n\n", "\r\r", "\r\n\r\n", " \n", "\n ", "\n\r\n"] {
        opens(&of_512(lead, "EDF_DataBlockID=1.Image.Psd;"), "refused 3 0");
        opens(&of_512(lead, "Title=;EDF_DataBlockID=1.Image.Psd;"), &format!("{} {} 0 1 0 0 0", lead.len(), 512 - lead.len()));
    }
}

/// Later blocks of kind 2: a start pattern belongs to the header, and any other whitespace is refused at the block's start.
#[test]
fn later_headers_of_kind_2() {
    let later = |gap: &str, length: usize| {
        let header = padded("EDF_DataBlockID=2.Image.Psd;", length);
        [&data("1.Image.Psd", "EDF_BinarySize=1;")[..], b" ", gap.as_bytes(), &header].concat()
    };
    for gap in ["", "\n", "\r\n"] {
        opens(&later(gap, 512 - gap.len()), "0 512 1 1 1 1 1 | 513 512 0 1 2 1 1");
        opens(&later(gap, 513 - gap.len()), "refused 11 513");
    }
    for gap in [" ", "\t", "\r", "\x0b", "\x0c", "\n\n", "\r\n\r\n", " \n", "\n "] {
        opens(&later(gap, 512 - gap.len()), "refused 3 513");
        opens(&later(gap, 512), "refused 3 513");
        opens(&[&data("1.Image.Psd", "")[..], gap.as_bytes()].concat(), "refused 3 512");
    }
    for gap in ["\n", "\r\n", "\n {"] {
        opens(&[&data("1.Image.Psd", "")[..], gap.as_bytes()].concat(), "refused 3 512");
    }
}

/// 14 comes before 3 and 4. In kind 1 whitespace after 256 blocks is no reason for it, and its position is the byte that is one; in kind 2 it is
/// the next byte, whatever it is.
#[test]
fn after_256_blocks() {
    let plain = |after: &[u8]| [&b"{}\n".repeat(256)[..], after].concat();
    let rows: Vec<String> = (0..256).map(|number| format!("{} 3 0 1 0 0 0", 3 * number)).collect();
    for after in [&b""[..], b" ", b"\n", b" \t\r\n\x0b\x0c"] {
        opens(&plain(after), &rows.join(" | "));
    }
    for (after, position) in [(&b"x"[..], 768), (b" x", 769), (b"\n\n{}\n", 770), (b"\0", 768), (b"\t\x0e ", 769), (b"{", 768)] {
        opens(&plain(after), &format!("refused 14 {position}"));
    }
    let blocks: Vec<u8> = (0..256).flat_map(|number| data(&format!("{number}.Image.Psd"), "")).collect();
    for after in [&b" "[..], b"\n", b"\r\n ", b"x", b"\n{"] {
        opens(&[&blocks, after].concat(), "refused 14 131072");
    }
}

/// Values, arrays and pixels of blocks after a gap.
#[test]
fn blocks_after_gaps() {
    let file = b" \n{a=5;}\n\t{Size=2;DataType=UnsignedByte;Dim_1=2;b=\"c\";}\n \x07\n ";
    let key = |key: &str| key.as_bytes().to_vec();
    let table = [
        (Call::Open { rows: 256 }, "2 7 0 1 0 0 0 | 10 46 2 1 0 0 0"),
        (Call::Find { block: 0, key: key("a") }, "5 1"),
        (Call::WholeNumber { block: 0, key: key("a") }, "5"),
        (Call::Find { block: 1, key: key("b") }, "51 1"),
        (Call::Find { block: 1, key: key("a") }, "refused 16 0"),
        (Call::Text { block: 1, key: key("b"), room: 1 }, "99"),
        (Call::ReadArray { block: 1, order: 1, room: 2 }, "32 7"),
        (Call::ReadPixel { block: 1, i1: 0, i2: 0, i3: 0 }, "unsigned 32"),
        (Call::ReadPixel { block: 1, i1: 1, i2: 0, i3: 0 }, "unsigned 7"),
        (Call::Describe { block: 1 }, "1 1 1 1 2 1 1 1 1 0 oddoddd"),
        (Call::Describe { block: 2 }, "refused 16 0"),
    ];
    for (call, expected) in table {
        expect(file, call, expected);
    }
}
