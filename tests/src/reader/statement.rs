//! Statements of a body: checks 6, 7 and 8.

use super::error::{demand, Error};
use super::header::Header;
use super::span::{part, Span};
use super::white::{stripped, trimmed};

/// "1 to 64 characters remain."
pub const LONGEST_KEY: usize = 64;

/// "at most 2,048 bytes remain".
pub const LONGEST_VALUE: usize = 2_048;

/// "A statement is key, `=`, value, `;`."
#[derive(Clone, Debug, PartialEq, Eq)]
pub struct Statement {
    pub first: usize,
    pub equals: usize,
    pub semicolon: usize,
    pub key: Vec<u8>,
    pub value: Span,
}

/// The statements of a header, or refusal 6; "each check for the whole header before the next".
pub fn read_statements(file: &[u8], header: &Header) -> Result<Vec<Statement>, Error> {
    let pieces = pieces(file, header);
    demand(pieces_kept(file, &pieces), 6, header.start)?;
    Ok(pieces.iter().filter_map(|piece| statement(file, piece)).collect())
}

/// Refusals 7 and 8, which come once the kind is known.
pub fn check_statements(file: &[u8], header: &Header, statements: &[Statement]) -> Result<(), Error> {
    demand(statements.iter().all(|s| lengths_kept(file, s)), 7, header.start)?;
    demand(!any_key_twice(statements), 8, header.start)
}

/// A piece of the body between two `;`, the last one being what stands after the last `;`.
struct Piece {
    first: usize,
    end: usize,
    last: bool,
}

/// The body cut at every `;`.
fn pieces(file: &[u8], header: &Header) -> Vec<Piece> {
    let semicolons = (header.body..header.close).filter(|&i| file[i] == b';');
    let ends: Vec<usize> = semicolons.chain([header.close]).collect();
    let firsts = [header.body].into_iter().chain(ends.iter().map(|end| end + 1));
    firsts.zip(&ends).map(|(first, &end)| Piece { first, end, last: end == header.close }).collect()
}

/// 6: "non-white after the last `;`, no `=`, or an empty key".
fn pieces_kept(file: &[u8], pieces: &[Piece]) -> bool {
    pieces.iter().all(|piece| match piece.last {
        true => trimmed(&file[piece.first..piece.end]).is_none(),
        false => statement(file, piece).is_some_and(|s| !s.key.is_empty()),
    })
}

/// "The key ends at the first `=`, the value at the first `;` after it".
fn statement(file: &[u8], piece: &Piece) -> Option<Statement> {
    if piece.last {
        return None;
    }
    let equals = (piece.first..piece.end).find(|&i| file[i] == b'=')?;
    Some(Statement {
        first: piece.first,
        equals,
        semicolon: piece.end,
        key: folded_key(&file[piece.first..equals]),
        value: value_span(file, equals + 1, piece.end),
    })
}

/// "A key loses all its white, also inside, and is folded to small letters".
pub fn folded_key(bytes: &[u8]) -> Vec<u8> {
    stripped(bytes).into_iter().map(small_letter).collect()
}

fn small_letter(byte: u8) -> u8 {
    let capitals = b"ABCDEFGHIJKLMNOPQRSTUVWXYZ";
    let small = b"abcdefghijklmnopqrstuvwxyz";
    capitals.iter().position(|&capital| capital == byte).map_or(byte, |i| small[i])
}

/// The value between `first` and `semicolon`, trimmed and unquoted; "all white is empty at its `;`".
fn value_span(file: &[u8], first: usize, semicolon: usize) -> Span {
    match trimmed(&file[first..semicolon]) {
        None => Span { start: semicolon, length: 0 },
        Some((from, to)) => {
            let (lead, length) = unquoted(&file[first + from..first + to]);
            Span { start: first + from + lead, length }
        }
    }
}

/// "loses one leading `"` if it has one, then one trailing `"` if it still has one":
/// the offset and length of what remains.
pub fn unquoted(bytes: &[u8]) -> (usize, usize) {
    let headless = bytes.strip_prefix(b"\"").unwrap_or(bytes);
    let rest = headless.strip_suffix(b"\"").unwrap_or(headless);
    (bytes.len() - headless.len(), rest.len())
}

/// 7: "key or value too long".
fn lengths_kept(file: &[u8], statement: &Statement) -> bool {
    let raw = &file[statement.equals + 1..statement.semicolon];
    let length = trimmed(raw).map_or(0, |(from, to)| to - from);
    statement.key.len() <= LONGEST_KEY && length <= LONGEST_VALUE
}

/// 8: "A folded key stands once in a header", by comparing all pairs.
fn any_key_twice(statements: &[Statement]) -> bool {
    (0..statements.len()).any(|i| statements[..i].iter().any(|other| other.key == statements[i].key))
}

/// The bytes of a statement's value.
pub fn value_of<'a>(file: &'a [u8], statement: &Statement) -> &'a [u8] {
    part(file, statement.value)
}

#[cfg(test)]
mod tests {
    use super::super::header::{braced_header, patterned_header};
    use super::*;

    fn read(body: &[u8]) -> Result<Vec<(Vec<u8>, Vec<u8>)>, u8> {
        let file = [b"{", body, b"}\n"].concat();
        let header = braced_header(&file, 0).unwrap();
        let statements = read_statements(&file, &header).map_err(|e| e.code)?;
        check_statements(&file, &header, &statements).map_err(|e| e.code)?;
        Ok(statements.iter().map(|s| (s.key.clone(), value_of(&file, s).to_vec())).collect())
    }

    fn one(key: &[u8], value: &[u8]) -> Result<Vec<(Vec<u8>, Vec<u8>)>, u8> {
        Ok(vec![(key.to_vec(), value.to_vec())])
    }

    #[test]
    fn places_of_a_reading() {
        let file = b"\n{\r\n A = b ;c=;}\n";
        let statements = read_statements(file, &patterned_header(file, 0).unwrap()).unwrap();
        let places: Vec<_> = statements.iter().map(|s| (s.first, s.equals, s.semicolon)).collect();
        assert_eq!(places, [(2, 7, 11), (12, 13, 14)]);
        assert_eq!(statements[0].value, Span { start: 9, length: 1 });
        assert_eq!(statements[1].value, Span { start: 14, length: 0 });
    }

    #[test]
    fn keys_and_values() {
        assert_eq!(read(b""), Ok(vec![]));
        assert_eq!(read(b" \r\n\t"), Ok(vec![]));
        assert_eq!(read(b" D i m\t_1 = 3 ; "), one(b"dim_1", b"3"));
        assert_eq!(read(b"a=b=c;"), one(b"a", b"b=c"));
        assert_eq!(read(b"@AZ[`az=1;"), one(b"@az[`az", b"1"));
    }

    #[test]
    fn check_6() {
        for body in [&b"a"[..], b"a=1", b"a;", b";", b"=1;", b" = 1;", b"a=1;b", b"a=1;;", b"a=1; ;", b"Title = \"a;b\" ;"] {
            assert_eq!(read(body), Err(6), "{body:?}");
        }
    }

    #[test]
    fn quotes() {
        assert_eq!(read(b"a = \" b \" ;"), one(b"a", b" b "));
        assert_eq!(read(b"a=\"\"b\"\";"), one(b"a", b"\"b\""));
        assert_eq!(read(b"a=\"b;"), one(b"a", b"b"));
        assert_eq!(read(b"a=b\";"), one(b"a", b"b"));
        assert_eq!(read(b"a=\";"), one(b"a", b""));
        assert_eq!(read(b"a=\"\";"), one(b"a", b""));
    }

    #[test]
    fn empty_values_have_a_place() {
        let places = |file: &[u8]| read_statements(file, &patterned_header(file, 0).unwrap()).unwrap()[0].value;
        assert_eq!(places(b"{a= \t;}\n"), Span { start: 5, length: 0 });
        assert_eq!(places(b"{a= \" ;}\n"), Span { start: 5, length: 0 });
        assert_eq!(places(b"{a= \"\" ;}\n"), Span { start: 5, length: 0 });
    }

    #[test]
    fn check_7_both_sides() {
        let key = |length: usize| read(&[&b"k".repeat(length)[..], b"=1;"].concat()).map(|_| ());
        assert_eq!(key(64), Ok(()));
        assert_eq!(key(65), Err(7));
        let value = |length: usize| read(&[b"k= ", &b"v".repeat(length)[..], b" ;"].concat()).map(|_| ());
        assert_eq!(value(2_048), Ok(()));
        assert_eq!(value(2_049), Err(7));
        let quoted = |length: usize| read(&[b"k= \"", &b"v".repeat(length)[..], b"\" ;"].concat()).map(|_| ());
        assert_eq!(quoted(2_046), Ok(()));
        assert_eq!(quoted(2_047), Err(7));
        let white_key = [&b"k ".repeat(64)[..], b"=1;"].concat();
        assert!(read(&white_key).is_ok());
    }

    #[test]
    fn check_8() {
        assert_eq!(read(b"a=1;b=1;A=2;"), Err(8));
        assert_eq!(read(b"a b=1;AB=2;"), Err(8));
        assert_eq!(read(b"a=1;aa=2;").map(|_| ()), Ok(()));
    }

    #[test]
    fn check_6_before_7_before_8() {
        let long = b"k".repeat(65);
        assert_eq!(read(&[&long[..], b"=1;a=1;a=1;x"].concat()), Err(6));
        assert_eq!(read(&[b"a=1;a=1;", &long[..], b"=1;"].concat()), Err(7));
    }
}
