//! Keywords, whole numbers and text: "Values".

use edf_tests::answer::Call;
use edf_tests::both::{escape, find, text, unescape, whole_number};
use edf_tests::files::{data, general, padded};
use edf_tests::reader::Error;
use edf_tests::told::expect;

fn refused<T>(code: u8) -> Result<T, Error> {
    Err(Error { code, position: 0 })
}

/// A header of 5,120 bytes, with room for the longest values.
fn header(body: &str) -> Vec<u8> {
    padded(body, 5_120)
}

#[test]
fn whole_numbers() {
    let (nines, zeros) = ("9".repeat(1_000), format!("{}7", "0".repeat(999)));
    let table = [
        ("9223372036854775807", Ok(i64::MAX)),
        ("9223372036854775808", refused(18)),
        ("-9223372036854775808", Ok(i64::MIN)),
        ("-9223372036854775809", refused(18)),
        ("+1", Ok(1)),
        ("01", Ok(1)),
        ("-0", Ok(0)),
        ("", refused(18)),
        ("-", refused(18)),
        ("+", refused(18)),
        ("+-1", refused(18)),
        (" 1", refused(18)),
        ("1.0", refused(18)),
        (&nines, refused(18)),
        (&zeros, Ok(7)),
    ];
    for (value, expected) in table {
        assert_eq!(whole_number(&header(&format!("a=\"{value}\";")), 0, b"a"), expected, "{value}");
    }
}

/// What stands between `=` and `;`, and the value in it: trimmed, then without a quote at each end.
#[test]
fn places_of_values() {
    let table = [
        ("    ", 4, 0),
        ("", 0, 0),
        ("\"", 1, 0),
        (" \" ", 2, 0),
        ("\"\"", 1, 0),
        (" \" a b\" ", 2, 4),
        ("\"a", 1, 1),
        ("a\"", 0, 1),
        ("\"\"a\"\"", 1, 3),
        (" b=c ", 1, 3),
    ];
    for (raw, start, length) in table {
        let place = format!("{} {length}", 3 + start);
        expect(&header(&format!("a={raw};")), Call::Find { block: 0, key: b"a".to_vec() }, &place);
    }
}

/// A key of a header, a key that is sought, and whether it is the same.
#[test]
fn sought_keys() {
    let table: [(&str, &[u8], bool); 8] = [
        (" Da ta_Type", b"data_type", true),
        (" Da ta_Type", b"datatype", false),
        ("data_type", b"\tDA TA_\x0bType\r\n", true),
        ("Dim_1", b"DIM_10", false),
        ("Dim_10", b"DIM_1", false),
        ("a", b"", false),
        ("a", b" ", false),
        ("[", b"{", false),
    ];
    for (key, sought, same) in table {
        let found = find(&header(&format!("x=1;{key}=2;")), 0, sought);
        assert_eq!(found.is_ok(), same, "{key} {sought:?}");
        assert!(same || found == refused(16));
    }
}

/// A keyword is looked up in the block's own header, then in the general one; keys that start with `edf_` only in the own.
#[test]
fn headers_of_keywords() {
    let file = [general("1", "Title=a;Both=b;"), data("1.Image.Psd", "Both= \"cd\" ;")].concat();
    let table: [(usize, &[u8], &str); 9] = [
        (1, b"Both", "548 2"),
        (2, b"Both", "refused 16 0"),
        (1, b" ti TLE", "51 1"),
        (1, b"titles", "refused 16 0"),
        (1, b" ", "refused 16 0"),
        (1, b"edf_datablockid", "529 11"),
        (1, b"edf_datablocks", "refused 16 0"),
        (0, b"edf_datablocks", "43 1"),
        (0, b"edf_datablockid", "refused 16 0"),
    ];
    for (block, key, expected) in table {
        expect(&file, Call::Find { block, key: key.to_vec() }, expected);
    }
    expect(&file[..1_023], Call::Find { block: 9, key: b"x".to_vec() }, "refused 5 512");
}

/// Text, the room lent, and its value form.
#[test]
fn text_to_value_form() {
    let (longest, longer) = (vec![b'x'; 1_023], vec![b'x'; 1_024]);
    let (quoted, spoilt) = ([b"\"", &longest[..], b"\""].concat(), [&longest[..], b"\x80"].concat());
    let (marks, escapes) = (vec![b';'; 1_023], [b"\"", &b"\\:".repeat(1_023)[..], b"\""].concat());
    let table: [(&[u8], usize, Result<&[u8], Error>); 14] = [
        (b"x;", 5, Ok(b"\"x\\:\"")),
        (b"x;", 4, refused(22)),
        (b"", 2, Ok(b"\"\"")),
        (b"\\{}", 8, Ok(b"\"\\\\\\(\\)\"")),
        (b"\r\n", 6, Ok(b"\"\\r\\l\"")),
        (b"\t \"\x0b\x0c", 7, Ok(b"\"\t \"\x0b\x0c\"")),
        (b"a\x7f", 4, Ok(b"\"a\x7f\"")),
        (b"a\x80", 4, refused(24)),
        (b"a\0", 4, refused(24)),
        (&longest, 1_025, Ok(&quoted)),
        (&longer, 2_048, refused(25)),
        (&spoilt, 0, refused(24)),
        (&marks, 2_048, Ok(&escapes)),
        (&marks, 2_047, refused(22)),
    ];
    for (text, room, expected) in table {
        assert_eq!(escape(text, room), expected.map(<[u8]>::to_vec), "{text:?}");
    }
}

/// What stands between `=` and `;`, the room lent, and the text.
#[test]
fn value_form_to_text() {
    let (longest, longer) = (vec![b'x'; 1_023], vec![b'x'; 1_024]);
    let (spoilt, slashes, half) = ([&longest[..], b"\x80"].concat(), vec![b'\\'; 2_048], vec![b'\\'; 1_023]);
    let table: [(&[u8], usize, Result<&[u8], Error>); 18] = [
        (b"a\\:b", 3, Ok(b"a;b")),
        (b"a\\:b", 2, refused(22)),
        (b"\\\"", 0, Ok(b"")),
        (b"\"x\\:\"", 4, Ok(b"x;")),
        (b" \\s ", 4, Ok(b" ")),
        (b" \"a\" ", 4, Ok(b"a")),
        (b"\\(\\)\\q\\", 4, Ok(b"{}q")),
        (b"\\l\\n\\r\\s\\t\\v\\f\\(\\)\\:", 10, Ok(b"\n\n\r \t\x0b\x0c{};")),
        (b"a\r\nb\\\n:\r", 3, Ok(b"ab;")),
        (b"a;b", 4, refused(24)),
        (b"a{b", 4, refused(24)),
        (b"a\x80", 4, refused(24)),
        (b"a\0", 4, refused(24)),
        (&longest, 1_023, Ok(&longest)),
        (&longer, 2_048, refused(25)),
        (&spoilt, 0, refused(24)),
        (&slashes[..2_047], 1_023, Ok(&half)),
        (&slashes, 2_048, refused(25)),
    ];
    for (value, room, expected) in table {
        assert_eq!(unescape(value, room), expected.map(<[u8]>::to_vec), "{value:?}");
    }
}

/// A keyword's value is trimmed and unquoted once, and is text of at most 1,023 characters.
#[test]
fn keywords_as_text() {
    let table = [
        (" \"a\" ".to_string(), Ok("a".to_string())),
        ("\" \"\"a\"\" \"".to_string(), Ok(" \"\"a\"\" ".to_string())),
        ("\\:".repeat(1_023), Ok(";".repeat(1_023))),
        ("\\:".repeat(1_024), refused(25)),
    ];
    for (value, expected) in table {
        assert_eq!(text(&header(&format!("a={value};")), 0, b"a", 1_023), expected.map(String::into_bytes), "{value}");
    }
}
