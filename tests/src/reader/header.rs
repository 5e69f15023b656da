//! Where a header starts and ends: checks 3, 4 and 5.

use super::error::{demand, refuse, Error};

/// "The header, first pattern byte to last, is at most 65,536 bytes"; in kind 1 it has no pattern.
pub const LONGEST_HEADER: usize = 65_536;

/// "nothing, LF or CR LF; then `{`".
const STARTS: [&[u8]; 3] = [b"{", b"\n{", b"\r\n{"];

/// "then `}` LF or `}` CR LF".
const ENDS: [&[u8]; 2] = [b"}\n", b"}\r\n"];

/// A header: its length, and the offsets in the file of its body's first byte and of its `}`.
#[derive(Clone, Copy, Debug, PartialEq, Eq)]
pub struct Header {
    pub start: usize,
    pub body: usize,
    pub close: usize,
    pub length: usize,
}

/// "a header starts at its brace", in kind 1: the header at `start`, or refusal 3, 4 or 5.
pub fn braced_header(file: &[u8], start: usize) -> Result<Header, Error> {
    match file.get(start) {
        Some(b'{') => closed_header(file, start, 1),
        _ => refuse(3, start),
    }
}

/// "a kind 2 file keeps its start patterns": the header at `start`, or refusal 3, 4 or 5.
pub fn patterned_header(file: &[u8], start: usize) -> Result<Header, Error> {
    match opening_length(file.get(start..).unwrap_or(&[])) {
        Some(opening) => closed_header(file, start, opening),
        None => refuse(3, start),
    }
}

/// A first header that proves to be of kind 2, judged anew: "3 at 0 comes where no start pattern stands at 0, then 5 at 0 where pattern
/// and header together pass 65,536".
pub fn with_pattern(file: &[u8], header: Header) -> Result<Header, Error> {
    demand(opening_length(file).is_some(), 3, 0)?;
    let length = header.start + header.length;
    demand(length <= LONGEST_HEADER, 5, 0)?;
    Ok(Header { start: 0, length, ..header })
}

/// The header whose opening has this length, or refusal 4 or 5.
fn closed_header(file: &[u8], start: usize, opening: usize) -> Result<Header, Error> {
    let window = window(file, start);
    let Some(stop) = first_stop(window, opening) else {
        return refuse(5, start);
    };
    if window[stop] != b'}' {
        return refuse(4, start + stop);
    }
    let Some(closing) = closing_length(&window[stop..]) else {
        return refuse(5, start);
    };
    Ok(Header { start, body: start + opening, close: start + stop, length: stop + closing })
}

/// "the block's first 65,536 bytes".
fn window(file: &[u8], start: usize) -> &[u8] {
    let rest = file.get(start..).unwrap_or(&[]);
    &rest[..rest.len().min(LONGEST_HEADER)]
}

/// The length of the start pattern, if one stands here.
fn opening_length(rest: &[u8]) -> Option<usize> {
    STARTS.iter().find(|pattern| rest.starts_with(pattern)).map(|pattern| pattern.len())
}

/// "the first of byte 0, above 127, `{` or `}` after the opening".
fn first_stop(window: &[u8], opening: usize) -> Option<usize> {
    (opening..window.len()).find(|&i| is_stop(window[i]))
}

fn is_stop(byte: u8) -> bool {
    byte == 0 || byte > 127 || byte == b'{' || byte == b'}'
}

/// The length of the end pattern, if one is complete here.
fn closing_length(rest: &[u8]) -> Option<usize> {
    ENDS.iter().find(|pattern| rest.starts_with(pattern)).map(|pattern| pattern.len())
}

#[cfg(test)]
mod tests {
    use super::*;

    fn code(answer: Result<Header, Error>) -> (u8, usize) {
        answer.map_or_else(|e| (e.code, e.position), |_| (0, 0))
    }

    /// The answer of both ways to read a header, for a file that starts with its brace.
    fn both(file: &[u8], start: usize) -> (u8, usize) {
        let answer = code(braced_header(file, start));
        assert_eq!(answer, code(patterned_header(file, start)), "{file:?}");
        answer
    }

    #[test]
    fn all_patterns() {
        for start in [&b"{"[..], b"\n{", b"\r\n{"] {
            for end in [&b"}\n"[..], b"}\r\n"] {
                let file = [&b"xx"[..], start, b" a = b ; ", end, b"}\n"].concat();
                let close = 2 + start.len() + 9;
                let header = Header { start: 2, body: 2 + start.len(), close, length: close + end.len() - 2 };
                assert_eq!(patterned_header(&file, 2), Ok(header));
                let brace = 1 + start.len();
                assert_eq!(braced_header(&file, brace), Ok(Header { start: brace, length: close + end.len() - brace, ..header }));
            }
        }
    }

    #[test]
    fn no_start_pattern() {
        for file in [&b""[..], b"\r{}\n", b" {}\n", b"\n\n{}\n", b"\r\n", b"\n"] {
            assert_eq!(both(file, 0), (3, 0), "{file:?}");
        }
        assert_eq!(code(braced_header(b"\n{}\n", 0)), (3, 0));
        assert_eq!(both(b"{}\n", 3), (3, 3));
        assert_eq!(both(b"{}\n", usize::MAX), (3, usize::MAX));
    }

    #[test]
    fn first_stop_that_is_no_closing_brace() {
        assert_eq!(both(b"{a\0}\n", 0), (4, 2));
        assert_eq!(both(b"{a\x80}\n", 0), (4, 2));
        assert_eq!(both(b"{{}\n", 0), (4, 1));
        assert_eq!(both(b"..{a\x7f\x01}\n", 2), (0, 0));
    }

    #[test]
    fn a_closing_brace_without_line_feed() {
        for file in [&b"{a"[..], b"{a}", b"{a}\r", b"{a} \n}\n", b"{a}\r\r\n}\n", b"{a}b}\n", b"{a}\0"] {
            assert_eq!(both(file, 0), (5, 0), "{file:?}");
        }
    }

    /// So many bytes up to the end pattern, and more after it.
    fn long(lead: &[u8], length: usize, end: &[u8]) -> Vec<u8> {
        let mut file = [lead, b"{"].concat();
        file.resize(length - end.len(), b' ');
        file.extend_from_slice(end);
        file.resize(70_000, 0);
        file
    }

    #[test]
    fn closed_at_65536_or_later() {
        assert_eq!(both(&long(b"", 65_536, b"}\n"), 0), (0, 0));
        assert_eq!(code(patterned_header(&long(b"\r\n", 65_536, b"}\r\n"), 0)), (0, 0));
        assert_eq!(code(patterned_header(&long(b"\r\n", 65_537, b"}\r\n"), 0)), (5, 0));
        assert_eq!(code(braced_header(&long(b"\r\n", 65_538, b"}\r\n"), 2)), (0, 0));
        assert_eq!(code(braced_header(&long(b"\r\n", 65_539, b"}\r\n"), 2)), (5, 2));
        assert_eq!(both(&long(b"", 65_537, b"}\n"), 0), (5, 0));
        assert_eq!(both(&long(b"", 65_537, b"}\r\n"), 0), (5, 0));
        assert_eq!(both(&long(b"", 66_048, b"}\n"), 0), (5, 0));
    }

    #[test]
    fn a_first_header_of_kind_2() {
        let judged = |file: &[u8], brace: usize| with_pattern(file, braced_header(file, brace).unwrap());
        assert_eq!(judged(b"\r\n{}\n", 2), Ok(Header { start: 0, body: 3, close: 3, length: 5 }));
        assert_eq!(judged(b"{}\n", 0), Ok(Header { start: 0, body: 1, close: 1, length: 3 }));
        for lead in [&b" "[..], b"\t", b"\r", b"\n\n", b"\n\r\n", b"\x0b", b" \n"] {
            assert_eq!(code(judged(&[lead, b"{}\n"].concat(), lead.len())), (3, 0), "{lead:?}");
        }
        assert_eq!(code(judged(&long(b"\n", 65_536, b"}\n"), 1)), (0, 0));
        assert_eq!(code(judged(&long(b"\n", 65_537, b"}\n"), 1)), (5, 0));
        assert_eq!(code(judged(&long(b"\t", 65_537, b"}\n"), 1)), (3, 0));
    }
}
