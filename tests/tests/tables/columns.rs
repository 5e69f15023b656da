//! Tables in files: a case in each line, its columns parted by tabs.

/// The lines of a table without the comments.
pub fn lines(table: &str) -> Vec<&str> {
    table.lines().filter(|line| !line.starts_with("# ")).collect()
}

/// The bytes of a column: `\xHH` is a byte, and `\-` alone is none at all.
pub fn unescaped(column: &str) -> Vec<u8> {
    if column == "\\-" {
        return vec![];
    }
    let mut pieces = column.split("\\x");
    let mut bytes = pieces.next().unwrap().as_bytes().to_vec();
    for piece in pieces {
        let (byte, rest) = piece.split_at(2);
        bytes.push(u8::from_str_radix(byte, 16).unwrap());
        bytes.extend(rest.as_bytes());
    }
    bytes
}

#[test]
fn columns_of_bytes() {
    assert_eq!(unescaped("\\-"), b"");
    assert_eq!(unescaped("-"), b"-");
    assert_eq!(unescaped("1\\x0d\\x0a5"), b"1\r\n5");
}
