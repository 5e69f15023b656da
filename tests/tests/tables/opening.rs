//! Opening: "Bytes to blocks". For each file the rows of its table (start, header length, data length, kind, sequence, instance, memory) or
//! the refusal.

use edf_tests::answer::Call;
use edf_tests::files::{data, general, padded, plain};
use edf_tests::told::expect;

fn opens(file: &[u8], expected: &str) {
    expect(file, Call::Open { rows: 256 }, expected);
}

const ONE: &str = "0 512 0 1 0 0 0";
const PSD_ONE: &str = "0 512 0 1 1 1 1";

/// A header's first and last bytes, its length, how much data follows, and what opening gives.
const FRAMES: [(&[u8], &[u8], usize, usize, &str); 35] = [
    (b"{", b"}\n", 512, 0, ONE),
    (b"{", b"}\n", 513, 0, "0 513 0 1 0 0 0"),
    (b"{EDF_DataBlockID=1.Image.Psd;", b"}\n", 512, 0, PSD_ONE),
    (b"{EDF_DataBlockID=1.Image.Psd;", b"}\n", 513, 0, "refused 11 0"),
    (b"{", b"}\n", 1_024, 0, "0 1024 0 1 0 0 0"),
    (b"{", b"}\n", 65_536, 0, "0 65536 0 1 0 0 0"),
    (b"{", b"}\n", 65_537, 0, "refused 5 0"),
    (b"{", b"}\r\n", 65_536, 0, "0 65536 0 1 0 0 0"),
    (b"{", b"}\r\n", 65_537, 0, "refused 5 0"),
    (b"\n{EDF_DataBlockID=1.Image.Psd;", b"}\n", 512, 0, PSD_ONE),
    (b"\r\n{EDF_DataBlockID=1.Image.Psd;", b"}\n", 512, 0, PSD_ONE),
    (b"\r{EDF_DataBlockID=1.Image.Psd;", b"}\n", 512, 0, "refused 3 0"),
    (b"\n{", b"}\n", 512, 0, "1 511 0 1 0 0 0"),
    (b"\r\n{", b"}\n", 512, 0, "2 510 0 1 0 0 0"),
    (b"\r{", b"}\n", 512, 0, "1 511 0 1 0 0 0"),
    (b"x{", b"}\n", 512, 0, "refused 3 0"),
    (b"{", b"}\n", 512, 1, ONE),
    (b"{EDF_DataBlockID=1.Image.Psd;", b"}\n", 512, 1, "refused 3 512"),
    (b"{", b"}\r\n", 512, 0, ONE),
    (b"{", b"}\r", 512, 0, "refused 5 0"),
    (b"{", b"}\rx", 512, 0, "refused 5 0"),
    (b"{", b"}", 512, 0, "refused 5 0"),
    (b"{", b"}x\n", 512, 0, "refused 5 0"),
    (b"{", b"} \n", 512, 0, "refused 5 0"),
    (b"{", b"", 512, 0, "refused 5 0"),
    (b"{Size=512;", b"}\n}\n", 514, 510, "0 512 512 1 0 0 0"),
    (b"{a=\x01;", b"}\n", 512, 0, ONE),
    (b"{a=\x80;", b"}\n", 512, 0, "refused 4 3"),
    (b"{ab={;", b"}\n", 512, 0, "refused 4 4"),
    (b"{", b"{", 65_536, 0, "refused 4 65535"),
    (b"{", b"{", 65_537, 0, "refused 5 0"),
    (b"{Size=10;", b"}\n", 512, 10, "0 512 10 1 0 0 0"),
    (b"{Size=11;", b"}\n", 512, 10, "refused 12 0"),
    (b"{EDF_DataBlockID=1.Image.Psd;EDF_BinarySize=10;", b"}\n", 512, 10, "0 512 10 1 1 1 1"),
    (b"{EDF_DataBlockID=1.Image.Psd;EDF_BinarySize=11;", b"}\n", 512, 10, "refused 12 0"),
];

fn framed(first: &[u8], last: &[u8], length: usize, size: usize) -> Vec<u8> {
    let mut file = first.to_vec();
    file.resize(length - last.len(), b' ');
    file.extend(last);
    file.resize(length + size, b' ');
    file
}

#[test]
fn frames() {
    for (first, last, length, size, expected) in FRAMES {
        opens(&framed(first, last, length, size), expected);
    }
}

/// After a block of 512 bytes the limits and the places are those of the second header.
#[test]
fn frames_of_a_later_block() {
    let table: [(&[u8], &[u8], usize, &str); 6] = [
        (b"{", b"}\n", 65_536, "0 512 0 1 0 0 0 | 512 65536 0 1 0 0 0"),
        (b"{", b"}\n", 65_537, "refused 5 512"),
        (b"{", b"}x\n", 512, "refused 5 512"),
        (b"{a={1};", b"}\n", 512, "refused 4 515"),
        (b"\r{", b"}\n", 512, "0 512 0 1 0 0 0 | 513 511 0 1 0 0 0"),
        (b"x{", b"}\n", 512, "refused 3 512"),
    ];
    for (first, last, length, expected) in table {
        opens(&[plain(""), framed(first, last, length, 0)].concat(), expected);
    }
}

/// The bodies of headers of 512 bytes, and what opening gives.
const BODIES: [(&[&str], &str); 47] = [
    // Statements: 6, 7 and 8.
    (&["a=;"], ONE),
    (&["a=1;b=2; "], ONE),
    (&["a=b=c;"], ONE),
    (&["a;"], "refused 6 0"),
    (&["a=1;b=2"], "refused 6 0"),
    (&["=1;"], "refused 6 0"),
    (&[" =1;"], "refused 6 0"),
    (&["a=1;x"], "refused 6 0"),
    (&["a=1;a=2;x"], "refused 6 0"),
    (&["a=1;", "b;"], "refused 6 512"),
    (&["Dim_1=1;Dim_2=2;"], ONE),
    (&["Dim_1=1;d I m_1=2;"], "refused 8 0"),
    (&["", "a=1;A=2;"], "refused 8 512"),
    // The kinds of file, and lengths of data: 9.
    (&["EDF_DataBlockID = 1.Image.Psd ;"], "0 512 0 1 1 1 1"),
    (&["EDF_Other=1;EDF_DataBlockID=1.Image.Psd;"], "refused 9 0"),
    (&["Title=x;EDF_DataBlockID=bad;"], ONE),
    (&["EDF_DataBlockID=1.Image.Psd;", "Title=x;"], "refused 9 512"),
    (&["Size=0;"], ONE),
    (&["Size=-1;"], "refused 9 0"),
    (&["EDF_DataBlockID=1.Image.Psd;Size=-1;"], "0 512 0 1 1 1 1"),
    (&["EDF_DataBlockID=1.Image.Psd;EDF_BinarySize=x;"], "refused 9 0"),
    (&["EDF_DataBlockID=1.Image.Psd;Title=;EDF_BinarySize=x;"], "0 512 0 1 1 1 1"),
    // Identities: 9 and 13.
    (&["EDF_DataBlockID=1.Image.Psd.1;"], "refused 9 0"),
    (&["EDF_DataBlockID=1.Image.Psd.2;"], "0 512 0 1 1 1 2"),
    (&["EDF_DataBlockID=-3.Image.Error;"], "0 512 0 1 -3 2 1"),
    (&["EDF_DataBlockID=1.Image.psd;"], "refused 9 0"),
    (&["EDF_DataBlockID=1.Image;"], "refused 9 0"),
    (&["EDF_DataBlockID=x.Image.Psd;"], "refused 9 0"),
    (&["EDF_DataBlockID=1.Image.Psd;", "EDF_DataBlockID=1.Image.Error;"], "0 512 0 1 1 1 1 | 512 512 0 1 1 2 1"),
    (&["EDF_DataBlockID=1.Image.Psd;", "EDF_DataBlockID=1.Image.Psd.2;"], "0 512 0 1 1 1 1 | 512 512 0 1 1 1 2"),
    (&["EDF_DataBlockID=1.Image.Psd;", "EDF_DataBlockID=2.Image.Psd;", "EDF_DataBlockID=+01.Image.Psd;"], "refused 13 1024"),
    // EDF_BinaryFileName, EDF_HeaderSize: 10, 9 and 11.
    (&["EDF_DataBlockID=1.Image.Psd;EDF_BinaryFileName=x;"], "refused 10 0"),
    (&["EDF_DataBlockID=1.Image.Psd;Title=x;EDF_BinaryFileName=x;"], "0 512 0 1 1 1 1"),
    (&["EDF_DataBlockID=1.Image.Psd;EDF_HeaderSize=512;"], "0 512 0 1 1 1 1"),
    (&["EDF_DataBlockID=1.Image.Psd;EDF_HeaderSize=1024;"], "refused 11 0"),
    (&["EDF_DataBlockID=1.Image.Psd;EDF_HeaderSize=x;"], "refused 9 0"),
    // The general header: 9, 11 and 15.
    (&["EDF_DataFormatVersion=2.42;EDF_DataBlocks=1;", PSD], GENERAL),
    (&["EDF_DataFormatVersion=2.4;EDF_DataBlocks=1;", PSD], "refused 9 0"),
    (&["EDF_DataFormatVersion=0.42;EDF_DataBlocks=1;", PSD], "refused 9 0"),
    (&["EDF_DataFormatVersion=2.42;EDF_BinarySize=0;", PSD], "refused 9 0"),
    (&["EDF_DataFormatVersion=2.42;EDF_DataBlocks=0;"], "refused 9 0"),
    (&["EDF_DataFormatVersion=2.42;EDF_DataBlocks=2;", PSD], "refused 15 0"),
    (&["EDF_DataFormatVersion=2.42;EDF_DataBlocks=Undetermined;", PSD], GENERAL),
    (&["EDF_DataFormatVersion=2.42;EDF_DataBlocks=Undetermined;", PSD, "EDF_DataBlockID=2.Image.Psd;"], "refused 15 0"),
    (&["EDF_DataFormatVersion=2.42;EDF_DataBlocks=1;EDF_BlockBoundary=256;", PSD], GENERAL),
    (&["EDF_DataFormatVersion=2.42;EDF_DataBlocks=1;EDF_BlockBoundary=1024;", PSD], "refused 11 0"),
    (&["EDF_DataFormatVersion=2.42;EDF_DataBlocks=1;EDF_BlockBoundary=0;", PSD], "refused 9 0"),
];

const PSD: &str = "EDF_DataBlockID=1.Image.Psd;";
const GENERAL: &str = "0 512 0 0 0 0 0 | 512 512 0 1 1 1 1";

#[test]
fn bodies() {
    for (bodies, expected) in BODIES {
        opens(&bodies.iter().flat_map(plain).collect::<Vec<u8>>(), expected);
    }
    let three = [general("2", ""), data("1.Image.Psd", ""), data("2.Image.Psd", "")].concat();
    opens(&three, "0 512 0 0 0 0 0 | 512 512 0 1 1 1 1 | 1024 512 0 1 2 1 1");
}

/// Keys of 64 characters and values of 2,048 bytes, and one more; what is no statement after them comes before their length, and their
/// length before a key that stands twice.
#[test]
fn lengths_of_keys_and_values() {
    let (key, value) = (|n: usize| "k".repeat(n), |n: usize| "v".repeat(n));
    let good = "0 5120 0 1 0 0 0";
    let table = [
        (format!("{}=;", key(64)), good),
        (format!("{}=;x", key(64)), "refused 6 0"),
        (format!("{}=;", key(65)), "refused 7 0"),
        (format!("{}=;x", key(65)), "refused 6 0"),
        (format!("{} {}=;", key(30), key(34)), good),
        (format!("{0}=;{0}=;", key(65)), "refused 7 0"),
        (format!("a= {} ;", value(2_048)), good),
        (format!("a= {} ;x", value(2_048)), "refused 6 0"),
        (format!("a= {} ;", value(2_049)), "refused 7 0"),
        (format!("a= {} ;x", value(2_049)), "refused 6 0"),
        (format!("a=\"{}\";", value(2_046)), good),
        (format!("a=\"{}\";", value(2_047)), "refused 7 0"),
        (format!("a=;{}b=;", " ".repeat(5_000)), good),
        (format!("a=;{}A=;", " ".repeat(5_000)), "refused 8 0"),
    ];
    for (body, expected) in table {
        opens(&padded(body, 5_120), expected);
    }
}

/// The table has 256 rows; a byte after 256 blocks is refused before it is looked at.
#[test]
fn numbers_of_blocks() {
    let many = plain("").repeat(256);
    let rows: Vec<String> = (0..256).map(|number| format!("{} 512 0 1 0 0 0", 512 * number)).collect();
    opens(&many, &rows.join(" | "));
    opens(&[&many[..], b"x"].concat(), "refused 14 131072");
}
