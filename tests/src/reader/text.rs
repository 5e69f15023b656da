//! Text of values, and value form of text.

use super::error::{demand, Error};
use super::keywords::find;
use super::span::part;
use super::statement::unquoted;
use super::white::trimmed;

/// "At most 1,023 characters."
pub const LONGEST_TEXT: usize = 1_023;

/// 000's table 3, without the backslash.
const ESCAPES: [(u8, u8); 10] = [
    (b'l', b'\n'), (b'n', b'\n'), (b'r', b'\r'), (b's', b' '), (b't', b'\t'),
    (b'v', 0x0b), (b'f', 0x0c), (b'(', b'{'), (b')', b'}'), (b':', b';'),
];

/// "`\` as `\\`, LF `\l`, CR `\r`, `{` `\(`, `}` `\)`, `;` `\:`".
const VALUE_FORMS: [(u8, u8); 6] =
    [(b'\\', b'\\'), (b'\n', b'l'), (b'\r', b'r'), (b'{', b'('), (b'}', b')'), (b';', b':')];

/// A keyword's value as text; 25, then 22.
pub fn text(file: &[u8], block: usize, key: &[u8], room: usize) -> Result<Vec<u8>, Error> {
    let span = find(file, block, key)?;
    delivered(text_of(part(file, span)), room)
}

/// "To value form"; 24, then 25, then 22.
pub fn escape(text: &[u8], room: usize) -> Result<Vec<u8>, Error> {
    demand(text.iter().all(|&byte| may_be_text(byte)), 24, 0)?;
    demand(text.len() <= LONGEST_TEXT, 25, 0)?;
    let value = value_form(text);
    demand(value.len() <= room, 22, 0)?;
    Ok(value)
}

/// "Back takes bytes of any length that may stand between `=` and `;`,
/// and itself trims and unquotes them first."
pub fn unescape(value: &[u8], room: usize) -> Result<Vec<u8>, Error> {
    demand(value.iter().all(|&byte| may_be_value(byte)), 24, 0)?;
    let (from, to) = trimmed(value).unwrap_or((0, 0));
    let (lead, length) = unquoted(&value[from..to]);
    delivered(text_of(&value[from + lead..from + lead + length]), room)
}

fn delivered(text: Vec<u8>, room: usize) -> Result<Vec<u8>, Error> {
    demand(text.len() <= LONGEST_TEXT, 25, 0)?;
    demand(text.len() <= room, 22, 0)?;
    Ok(text)
}

/// "bytes from 1 to 127".
pub fn may_be_text(byte: u8) -> bool {
    (1..=127).contains(&byte)
}

fn may_be_value(byte: u8) -> bool {
    may_be_text(byte) && !b"{};".contains(&byte)
}

/// The text of a value that is trimmed and unquoted.
fn text_of(value: &[u8]) -> Vec<u8> {
    let kept = without_line_ends(value);
    let escaping = escaping_backslashes(&kept);
    let characters = (0..kept.len()).filter(|&i| !escaping[i]);
    characters.map(|i| if i > 0 && escaping[i - 1] { unescaped(kept[i]) } else { kept[i] }).collect()
}

/// "drop raw CR and LF".
fn without_line_ends(value: &[u8]) -> Vec<u8> {
    value.iter().copied().filter(|byte| !b"\r\n".contains(byte)).collect()
}

/// For each byte, whether it is a backslash that escapes what follows:
/// one with an even number of backslashes just before it.
fn escaping_backslashes(bytes: &[u8]) -> Vec<bool> {
    (0..bytes.len()).map(|i| bytes[i] == b'\\' && backslashes_before(bytes, i) % 2 == 0).collect()
}

fn backslashes_before(bytes: &[u8], end: usize) -> usize {
    bytes[..end].iter().rev().take_while(|&&byte| byte == b'\\').count()
}

/// "a backslash before another character that character".
fn unescaped(byte: u8) -> u8 {
    ESCAPES.iter().find(|pair| pair.0 == byte).map_or(byte, |pair| pair.1)
}

/// "`"`, the characters, `"`".
pub fn value_form(text: &[u8]) -> Vec<u8> {
    let inside: Vec<u8> = text.iter().flat_map(|&byte| escaped(byte)).collect();
    [b"\"", &inside[..], b"\""].concat()
}

fn escaped(byte: u8) -> Vec<u8> {
    let form = VALUE_FORMS.iter().find(|pair| pair.0 == byte);
    form.map_or(vec![byte], |pair| vec![b'\\', pair.1])
}

#[cfg(test)]
mod tests {
    use super::super::samples::one_block;
    use super::*;

    fn back(value: &[u8]) -> Vec<u8> {
        unescape(value, usize::MAX).unwrap()
    }

    fn code<T>(answer: Result<T, Error>) -> (u8, usize) {
        answer.map_or_else(|e| (e.code, e.position), |_| (0, 0))
    }

    #[test]
    fn examples() {
        assert_eq!(back(b"a\\:b"), b"a;b");
        assert_eq!(back(b"\\\""), b"");
        assert_eq!(escape(b"x;", 99).unwrap(), b"\"x\\:\"");
    }

    #[test]
    fn every_escape() {
        assert_eq!(back(b"\\l\\n\\r\\s\\t\\v\\f\\(\\)\\:\\\\\\q\\\"x"), b"\n\n\r \t\x0b\x0c{};\\q\"x");
        assert_eq!(back(b"a\\"), b"a");
        assert_eq!(back(b"a\\\\"), b"a\\");
        assert_eq!(back(b"a\\\\\\"), b"a\\");
        assert_eq!(back(b"\\\\n"), b"\\n");
        assert_eq!(back(b"\\L"), b"L");
    }

    #[test]
    fn raw_line_ends_go_first() {
        assert_eq!(back(b"a\r\nb"), b"ab");
        assert_eq!(back(b"a\\\r\nnb"), b"a\nb");
        assert_eq!(back(b"\"\n\""), b"");
    }

    #[test]
    fn trimming_and_quotes() {
        assert_eq!(back(b" \" a \" "), b" a ");
        assert_eq!(back(b"\""), b"");
        assert_eq!(back(b" \t"), b"");
        assert_eq!(back(b"\"\"\""), b"\"");
    }

    #[test]
    fn bytes_that_cannot_stand_there() {
        for byte in 0..=255 {
            let text_code = if (1..=127).contains(&byte) { 0 } else { 24 };
            assert_eq!(code(escape(&[byte], 9)).0, text_code, "{byte}");
            let value_code = if b"{};".contains(&byte) { 24 } else { text_code };
            assert_eq!(code(unescape(&[b'a', byte], 9)).0, value_code, "{byte}");
        }
    }

    #[test]
    fn lengths_and_rooms() {
        assert_eq!(code(escape(&[b'a'; 1_023], 1_025)), (0, 0));
        assert_eq!(code(escape(&[b'a'; 1_023], 1_024)), (22, 0));
        assert_eq!(code(escape(&[b'a'; 1_024], 0)), (25, 0));
        assert_eq!(code(escape(&[0; 1_024], 0)), (24, 0));
        assert_eq!(code(unescape(&[b'a'; 1_023], 1_023)), (0, 0));
        assert_eq!(code(unescape(&[b'a'; 1_023], 1_022)), (22, 0));
        assert_eq!(code(unescape(&[b'a'; 1_024], 0)), (25, 0));
        assert_eq!(code(unescape(&[&[b'a'; 1_024][..], b"{"].concat(), 0)), (24, 0));
        assert_eq!(code(unescape(&b"\\l".repeat(1_023), 1_023)), (0, 0));
    }

    #[test]
    fn all_characters_come_back() {
        let all: Vec<u8> = (1..=127).collect();
        assert_eq!(back(&escape(&all, 999).unwrap()), all);
        for first in 1..=127 {
            for second in 1..=127 {
                let text = [first, second];
                assert_eq!(back(&escape(&text, 9).unwrap()), text);
            }
        }
        assert_eq!(back(&escape(b"", 2).unwrap()), b"");
    }

    #[test]
    fn text_of_a_keyword() {
        let file = one_block("Title=\"a\\:b \\(c\\) d\\\\e\\lf\";", b"");
        assert_eq!(text(&file, 0, b"title", 13), Ok(b"a;b {c} d\\e\nf".to_vec()));
        assert_eq!(code(text(&file, 0, b"title", 12)), (22, 0));
        assert_eq!(code(text(&file, 0, b"titles", 12)), (16, 0));
    }
}
