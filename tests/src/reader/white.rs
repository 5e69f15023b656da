//! White bytes: stripping, trimming and skipping.

/// "White is space, tab, LF, CR, VT, FF."
pub const WHITE: [u8; 6] = [b' ', b'\t', b'\n', b'\r', 0x0b, 0x0c];

pub fn is_white(byte: u8) -> bool {
    WHITE.contains(&byte)
}

/// The offsets of all bytes that are not white.
pub fn solid_offsets(bytes: &[u8]) -> Vec<usize> {
    (0..bytes.len()).filter(|&i| !is_white(bytes[i])).collect()
}

/// "loses all its white, also inside".
pub fn stripped(bytes: &[u8]) -> Vec<u8> {
    solid_offsets(bytes).iter().map(|&i| bytes[i]).collect()
}

/// "trimmed of white at both ends": first offset and the one past the last, none if all is white.
pub fn trimmed(bytes: &[u8]) -> Option<(usize, usize)> {
    let solid = solid_offsets(bytes);
    Some((*solid.first()?, *solid.last()? + 1))
}

/// The first offset from `from` on of a byte that is not white; the length where there is none.
pub fn first_solid(bytes: &[u8], from: usize) -> usize {
    (from..bytes.len()).find(|&i| !is_white(bytes[i])).unwrap_or(bytes.len())
}

#[cfg(test)]
mod tests {
    use super::*;

    #[test]
    fn six_bytes_are_white() {
        let white: Vec<u8> = (0..=255).filter(|&b| is_white(b)).collect();
        assert_eq!(white, [9, 10, 11, 12, 13, 32]);
    }

    #[test]
    fn stripping_also_inside() {
        assert_eq!(stripped(b" D i\tm\r\n_\x0b\x0c1 "), b"Dim_1");
        assert_eq!(stripped(b" \t"), b"");
    }

    #[test]
    fn trimming_at_both_ends_only() {
        assert_eq!(trimmed(b" a b\n"), Some((1, 4)));
        assert_eq!(trimmed(b"ab"), Some((0, 2)));
        assert_eq!(trimmed(b" \r\n"), None);
        assert_eq!(trimmed(b""), None);
    }

    #[test]
    fn skipping_white() {
        assert_eq!(first_solid(b" \t\n\r\x0b\x0c{ {", 0), 6);
        assert_eq!(first_solid(b"{  {", 0), 0);
        assert_eq!(first_solid(b"{  {", 1), 3);
        assert_eq!(first_solid(b"{ \0 {", 1), 2);
        assert_eq!(first_solid(b"{  ", 1), 3);
        assert_eq!(first_solid(b"", 0), 0);
    }
}
