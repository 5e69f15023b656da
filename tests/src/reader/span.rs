//! Places in the caller's file.

/// A place: first byte and length.
#[derive(Clone, Copy, Debug, PartialEq, Eq)]
pub struct Span {
    pub start: usize,
    pub length: usize,
}

/// "the bytes at a place are handed back as part of the caller's file,
/// and a place not inside the file gives the empty part."
pub fn part(file: &[u8], span: Span) -> &[u8] {
    let end = span.start.checked_add(span.length);
    end.and_then(|end| file.get(span.start..end)).unwrap_or(&[])
}

#[cfg(test)]
mod tests {
    use super::*;

    #[test]
    fn inside_and_outside() {
        let file = b"abcdef";
        assert_eq!(part(file, Span { start: 2, length: 3 }), b"cde");
        assert_eq!(part(file, Span { start: 2, length: 4 }), b"cdef");
        assert_eq!(part(file, Span { start: 2, length: 5 }), b"");
        assert_eq!(part(file, Span { start: 6, length: 0 }), b"");
        assert_eq!(part(file, Span { start: 7, length: 0 }), b"");
        assert_eq!(part(file, Span { start: usize::MAX, length: 2 }), b"");
        assert_eq!(part(file, Span { start: 1, length: usize::MAX }), b"");
    }
}
