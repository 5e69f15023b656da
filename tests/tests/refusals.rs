//! Each number of refusal, just refused and just accepted, by the second reader and by the library.

use edf_tests::answer::{Answer, Call};
use edf_tests::both::*;
use edf_tests::files::{self, data, general, padded, plain};
use edf_tests::reader::{Error, Frame};

fn array(fields: &str, length: usize) -> Vec<u8> {
    files::array(fields, &vec![0; length])
}

type Outcome = (u8, usize);

fn outcome<T>(answer: Result<T, Error>) -> Outcome {
    answer.map_or_else(|e| (e.code, e.position), |_| (0, 0))
}

fn opened(file: &[u8]) -> Outcome {
    outcome(open(file, 256))
}

const GOOD: Outcome = (0, 0);

#[test]
fn one_and_two() {
    let mut large = vec![b' '; 1 << 30];
    assert_eq!(opened(&large), (3, 1 << 30));
    large[..512].copy_from_slice(&plain(&format!("Size={};", (1 << 30) - 512)));
    assert_eq!(opened(&large), GOOD);
    large.push(0);
    assert_eq!(opened(&large), (1, 0));
    assert_eq!(outcome(open(&large, 255)), (1, 0));
    assert_eq!(outcome(describe(&large, 0)), (1, 0));
    assert_eq!(outcome(open(&plain(""), 255)), (2, 0));
    assert_eq!(outcome(open(&plain(""), 256)), GOOD);
}

#[test]
fn three_to_five() {
    let file = plain("");
    assert_eq!(opened(&[&file[..], &file[..]].concat()), GOOD);
    assert_eq!(opened(&[&file[..], b" ", &file[..]].concat()), GOOD);
    assert_eq!(opened(&[&file[..], b"x", &file[..]].concat()), (3, 512));
    assert_eq!(opened(&plain("a=\x7f;")), GOOD);
    assert_eq!(opened(&plain("a=\u{80};")), (4, 3));
    assert_eq!(opened(&plain("a=\0;")), (4, 3));
    assert_eq!(opened(&plain("a={;")), (4, 3));
    assert_eq!(opened(&plain("a=};")), (5, 0));
    assert_eq!(opened(&file[..511]), (5, 0));
    assert_eq!(opened(&padded("", 65_536)), GOOD);
    assert_eq!(opened(&padded("", 66_048)), (5, 0));
}

/// 3 in kind 2, and in both kinds before the kind is known.
#[test]
fn three_and_whitespace() {
    let (one, two) = (data("1.Image.Psd", ""), data("2.Image.Psd", ""));
    assert_eq!(opened(&[&one[..], &two].concat()), GOOD);
    assert_eq!(opened(&[&one[..], b" ", &two].concat()), (3, 512));
    assert_eq!(opened(&[&one[..], b"\n"].concat()), (3, 512));
    for white in [" ", "\t", "\r", "\n", "\x0b", "\x0c"] {
        assert_eq!(opened(format!("{white}{{}}\n{white}{{}}\n{white}").as_bytes()), GOOD);
        assert_eq!(opened(white.repeat(7).as_bytes()), (3, 7));
        assert_eq!(opened(format!("{white}{white}x").as_bytes()), (3, 2));
        assert_eq!(opened(format!("{{}}\n{white}x").as_bytes()), (3, 4));
    }
    let first = |lead: &[u8]| opened(&[lead, &padded("EDF_DataBlockID=1.Image.Psd;", 512 - lead.len())].concat());
    assert_eq!([first(b""), first(b"\n"), first(b"\r\n")], [GOOD; 3]);
    assert_eq!([first(b" "), first(b"\r"), first(b"\n\n")], [(3, 0); 3]);
}

/// 5: the 65,536 bytes are counted from the brace until the kind is known, and in kind 2 from the pattern then.
#[test]
fn five_from_the_brace_and_from_the_pattern() {
    let header = |lead: &str, body: &str, length: usize| opened(&[lead.as_bytes(), &padded(body, length)].concat());
    for lead in ["", "\n", "\r\n", "\n\n", " "] {
        assert_eq!(header(lead, "", 65_536), GOOD);
        assert_eq!(header(lead, "", 65_537), (5, lead.len()));
        assert_eq!(header(lead, "EDF_DataBlockID=1.Image.Psd;", 65_537), (5, lead.len()));
    }
    for lead in ["\n", "\r\n"] {
        assert_eq!(header(lead, "EDF_DataBlockID=1.Image.Psd;", 65_536 - lead.len()), GOOD);
        assert_eq!(header(lead, "EDF_DataBlockID=1.Image.Psd;", 65_537 - lead.len()), (5, 0));
        assert_eq!(header(lead, "EDF_DataBlockID=1.Image.Psd;", 65_536), (5, 0));
    }
    for lead in ["\n\n", " "] {
        assert_eq!(header(lead, "EDF_DataBlockID=1.Image.Psd;", 65_536), (3, 0));
    }
}

/// 3 at 0 and 5 at 0 come after 6 and before 7, 8 and 9.
#[test]
fn where_the_pattern_is_judged() {
    let faults = ["EDF_x=;", "EDF_x=;edf_X=;", &format!("EDF_{}=;", "k".repeat(61))];
    for (body, code) in faults.into_iter().zip([9, 8, 7]) {
        assert_eq!(opened(format!("\n{{{body}}}\n").as_bytes()), (code, 0));
        assert_eq!(opened(format!("\t{{{body}}}\n").as_bytes()), (3, 0));
        assert_eq!(opened(format!("\t{{{body}x}}\n").as_bytes()), (6, 1));
        assert_eq!(opened(&[b"\n", &padded(body, 65_535)[..]].concat()), (code, 0));
        assert_eq!(opened(&[b"\n", &padded(body, 65_536)[..]].concat()), (5, 0));
        assert_eq!(opened(&[b"\n", &padded(format!("{body}x"), 65_536)[..]].concat()), (6, 1));
    }
}

#[test]
fn six_to_eight() {
    assert_eq!(opened(&plain("a=; ")), GOOD);
    assert_eq!(opened(&plain("a=; x")), (6, 0));
    assert_eq!(opened(&plain("a;")), (6, 0));
    assert_eq!(opened(&plain(" =a;")), (6, 0));
    assert_eq!(opened(&plain(&format!("{}=1;", "k".repeat(64)))), GOOD);
    assert_eq!(opened(&plain(&format!("{}=1;", "k".repeat(65)))), (7, 0));
    assert_eq!(opened(&padded(&format!("k={};", "v".repeat(2_048)), 2_560)), GOOD);
    assert_eq!(opened(&padded(&format!("k={};", "v".repeat(2_049)), 2_560)), (7, 0));
    assert_eq!(opened(&plain("a=;b=;")), GOOD);
    assert_eq!(opened(&plain("a=;A=;")), (8, 0));
}

/// A header of 65,536 bytes that is full of keys, and the same with the key of its last statement somewhere before.
#[test]
fn eight_in_a_full_header() {
    let letter = |number: usize| char::from(b'a' + (number % 26) as u8);
    let key = |number: usize| [letter(number / 676), letter(number / 26), letter(number)].iter().collect::<String>();
    let full = |last: &str| {
        let keys: Vec<String> = (0..13_105).map(key).chain([last.to_string()]).collect();
        let body: String = keys.iter().map(|key| format!("{key}=;")).collect();
        opened(&padded(&body, 65_536))
    };
    assert_eq!(full(&key(13_105)), GOOD);
    for number in [0, 1, 6_000, 13_104] {
        assert_eq!(full(&key(number).to_uppercase()), (8, 0));
    }
}

#[test]
fn nine_to_eleven() {
    assert_eq!(opened(&plain("Size=0;")), GOOD);
    assert_eq!(opened(&plain("Size=-1;")), (9, 0));
    assert_eq!(opened(&data("1.Image.Psd.2", "")), GOOD);
    assert_eq!(opened(&data("1.Image.Psd.1", "")), (9, 0));
    assert_eq!(opened(&data("1.Image.Psd", "a=;EDF_BinaryFileName=x;")), GOOD);
    assert_eq!(opened(&data("1.Image.Psd", "EDF_BinaryFileName=x;")), (10, 0));
    assert_eq!(opened(&padded("EDF_DataBlockID=1.Image.Psd;", 1_024)), GOOD);
    assert_eq!(opened(&padded("EDF_DataBlockID=1.Image.Psd;", 1_023)), (11, 0));
    assert_eq!(opened(&padded("Title=;EDF_DataBlockID=1.Image.Psd;EDF_HeaderSize=512;", 1_023)), GOOD);
    assert_eq!(opened(&data("1.Image.Psd", "EDF_HeaderSize=512;")), GOOD);
    assert_eq!(opened(&data("1.Image.Psd", "EDF_HeaderSize=511;")), (11, 0));
}

#[test]
fn twelve_to_fifteen() {
    let file = array("", 9);
    assert_eq!(opened(&file), GOOD);
    assert_eq!(opened(&file[..520]), (12, 0));
    assert_eq!(opened(&[data("1.Image.Psd", ""), data("2.Image.Psd", "")].concat()), GOOD);
    assert_eq!(opened(&[data("1.Image.Psd", ""), data("+1.Image.Psd", "")].concat()), (13, 512));
    assert_eq!(opened(&plain("").repeat(256)), GOOD);
    assert_eq!(opened(&plain("").repeat(257)), (14, 131_072));
    assert_eq!(opened(&[plain("").repeat(256), b" \n".to_vec()].concat()), GOOD);
    assert_eq!(opened(&[plain("").repeat(256), b" \nx".to_vec()].concat()), (14, 131_074));
    let many: Vec<u8> = (0..256).flat_map(|number| data(&format!("{number}.Image.Psd"), "")).collect();
    assert_eq!(opened(&many), GOOD);
    assert_eq!(opened(&[&many[..], b"\n"].concat()), (14, 131_072));
    assert_eq!(opened(&[general("1", ""), data("1.Image.Psd", "")].concat()), GOOD);
    assert_eq!(opened(&[general("2", ""), data("1.Image.Psd", "")].concat()), (15, 0));
}

#[test]
fn sixteen_to_eighteen() {
    let file = [general("1", ""), array("DataType=UnsignedByte;Dim_1=1;a=1;b=1x;", 1)].concat();
    assert_eq!(outcome(describe(&file, 1)), GOOD);
    assert_eq!(outcome(describe(&file, 0)), (16, 0));
    assert_eq!(outcome(describe(&file, 2)), (16, 0));
    assert_eq!(outcome(find(&file, 1, b"a")), GOOD);
    assert_eq!(outcome(find(&file, 1, b"c")), (16, 0));
    assert_eq!(outcome(whole_number(&file, 1, b"a")), GOOD);
    assert_eq!(outcome(whole_number(&file, 1, b"b")), (18, 0));
    assert_eq!(outcome(describe(&array("Compression=None;", 0), 0)), GOOD);
    assert_eq!(outcome(describe(&array("Compression=none;", 0), 0)), (17, 3));
    assert_eq!(outcome(describe(&array("DataType=UnsignedByte;Dim_1=1048576;", 1_048_576), 0)), GOOD);
    assert_eq!(outcome(describe(&array("DataType=UnsignedByte;Dim_1=1048577;", 1_048_577), 0)), (18, 4));
}

#[test]
fn nineteen_to_twenty_one() {
    assert_eq!(outcome(describe(&array("Dim_1=1;Dim_2=1;Dim_3=1;", 4), 0)), GOOD);
    assert_eq!(outcome(describe(&array("Dim_1=1;Dim_2=1;Dim_3=1;Dim_4=;", 4), 0)), (19, 0));
    assert_eq!(outcome(describe(&array("Dim_1=1;", 4), 0)), GOOD);
    assert_eq!(outcome(describe(&array("Dim_1=1;", 3), 0)), (20, 0));
    assert_eq!(outcome(describe(&array("Dim_1=1;DataValueOffset=0;", 4), 0)), GOOD);
    assert_eq!(outcome(describe(&array("Dim_1=1;DataValueOffset=1;", 4), 0)), (21, 0));
}

#[test]
fn twenty_two_to_twenty_five() {
    let file = array("Dim_1=2;", 8);
    assert_eq!(outcome(read_array(&file, 0, 2, 8)), GOOD);
    assert_eq!(outcome(read_array(&file, 0, 2, 7)), (22, 0));
    assert_eq!(outcome(read_array(&file, 0, 3, 7)), (24, 0));
    assert_eq!(outcome(read_pixel(&file, 0, 1, 0, 0)), GOOD);
    assert_eq!(outcome(read_pixel(&file, 0, 2, 0, 0)), (23, 0));
    let title = padded(&format!("a={};b={};", "v".repeat(1_023), "v".repeat(1_024)), 2_560);
    assert_eq!(outcome(text(&title, 0, b"a", 1_023)), GOOD);
    assert_eq!(outcome(text(&title, 0, b"a", 1_022)), (22, 0));
    assert_eq!(outcome(text(&title, 0, b"b", 0)), (25, 0));
    assert_eq!(outcome(list(&file, 71)), GOOD);
    assert_eq!(outcome(list(&file, 70)), (22, 0));
}

/// Numbers that are just in bounds, and just outside; bad form comes first, and no keyword before that.
#[test]
fn twenty_seven() {
    let read = |value: &str| outcome(real(&plain(format!("w={value};")), 0, b"w"));
    let sides = [
        ("9007199254740992", "9007199254740993"), ("-900719925474099.2_m", "-900719925474099.3_m"), ("1e22", "1e23"), ("-0e22", "-0e23"),
        ("1e-22_rad", "1e-23_rad"), ("1.5e-21", "1.5e-22"), ("1.5e23", "15e23"), (".0000000000000000000000", ".00000000000000000000000"),
        ("1.000000000000000_deg", "1.0000000000000000_deg"),
    ];
    for (inside, outside) in sides {
        assert_eq!((read(inside), read(outside)), (GOOD, (27, 0)), "{inside} {outside}");
        assert_eq!((read(&format!("{inside}x")), read(&format!("{outside}x"))), ((18, 0), (18, 0)), "{inside} {outside}");
    }
    assert_eq!((read("1e9223372036854775807"), read("1e9223372036854775808")), ((27, 0), (18, 0)));
    assert_eq!((read("1e-9223372036854775808"), read("1e-9223372036854775809")), ((27, 0), (18, 0)));
    assert_eq!(outcome(real(&plain("w=1e23;"), 0, b"v")), (16, 0));
    assert_eq!(outcome(real(&plain("w=1e23;"), 1, b"w")), (16, 0));
    assert_eq!(outcome(real(&padded("EDF_DataBlockID=1.Image.Psd;w=1e23;", 511), 0, b"w")), (11, 0));
}

/// 256 lines as long as a small file can make them: 76,828 bytes, 28 for the first line and 300 for each block, are room for them.
#[test]
fn twenty_two_for_a_long_listing() {
    let fields = "DataType=UnsignedInteger;ByteOrder=HighByteFirst;Dim_1=10;Dim_2=10;Dim_3=10;\
        DataRasterConfiguration=48;RasterOrientation=48;DataValueOffset=-9223372036854775808;";
    let block = |number: i64| {
        let identity = format!("{}.Image.Error.9223372036854775807", i64::MIN + number);
        [data(&identity, &format!("EDF_BinarySize=4000;{fields}")), vec![0; 4_000]].concat()
    };
    let file: Vec<u8> = (0..256).flat_map(block).collect();
    let listing = list(&file, 28 + 300 * 256).unwrap();
    let last = "255 1150560 512 4000 -9223372036854775553.Image.Error.9223372036854775807 \
        UnsignedIntegero HighByteFirsto 10x10x10o 48o 48o -9223372036854775808o\n";
    assert!(listing.ends_with(last.as_bytes()), "{}", String::from_utf8_lossy(&listing));
    assert_eq!(outcome(list(&file, listing.len())), GOOD);
    assert_eq!(outcome(list(&file, listing.len() - 1)), (22, 0));
}

/// A file that is written has at most 1,073,741,824 bytes: 512 of header and 172,544 times 6,223 pixels, and one pixel more.
#[test]
fn twenty_four_at_the_limit_of_files() {
    let given = |dim_1: usize, dim_2: usize| {
        let frame = Frame {
            sequence: 1, instance: 1, memory: 1, data_type: 1, order: 1, n: 2, dim_1, dim_2, dim_3: 0, configuration: 1,
        };
        both(b"", &Call::Write { frame, title: vec![], pixels: vec![0; dim_1 * dim_2], room: 0 })
    };
    assert_eq!(172_544 * 6_223, (1 << 30) - 512);
    assert_eq!(given(172_544, 6_223), Answer::Failed { code: 22, position: 0 });
    assert_eq!(37_119 * 28_927, (1 << 30) - 511);
    assert_eq!(given(37_119, 28_927), Answer::Failed { code: 24, position: 0 });
}
