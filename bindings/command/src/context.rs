//! The bytes around a position in a file.

const ROW: usize = 16;

/// Rows of sixteen bytes, as numbers and as characters: the row of the position with a mark under it, the row before and the two
/// after.
pub fn context(bytes: &[u8], position: usize) -> String {
    if position >= bytes.len() {
        return format!("    the file ends here, after {} bytes\n", bytes.len());
    }
    let row = position / ROW;
    let rows = row.saturating_sub(1)..(row + 3).min(bytes.len().div_ceil(ROW));
    rows.map(|number| {
        let line = line(number * ROW, &bytes[number * ROW..bytes.len().min((number + 1) * ROW)]);
        let mark = format!("{:width$}^^\n", "", width = 4 + 10 + 3 * (position % ROW));
        if number == row { line + &mark } else { line }
    })
    .collect()
}

fn line(offset: usize, bytes: &[u8]) -> String {
    let numbers: String = bytes.iter().map(|byte| format!("{byte:02x} ")).collect();
    let characters: String = bytes.iter().map(|&b| if (32..127).contains(&b) { char::from(b) } else { '.' }).collect();
    format!("    {offset:08x}  {numbers:<48} {characters}\n")
}

#[cfg(test)]
mod tests {
    use super::context;

    #[test]
    fn rows_and_mark() {
        let bytes: Vec<u8> = (0..=99).collect();
        let lines: Vec<String> = context(&bytes, 66).lines().map(str::to_string).collect();
        assert_eq!(lines.len(), 5);
        assert_eq!(lines[0], "    00000030  30 31 32 33 34 35 36 37 38 39 3a 3b 3c 3d 3e 3f  0123456789:;<=>?");
        assert_eq!(&lines[1][..26], "    00000040  40 41 42 43 ");
        assert_eq!(lines[2].find("^^"), lines[1].find("42"));
        assert_eq!(lines[4], format!("    00000060  {:<48} `abc", "60 61 62 63"));
    }

    #[test]
    fn edges() {
        assert_eq!(context(b"", 0), "    the file ends here, after 0 bytes\n");
        assert_eq!(context(b"a", 0), format!("    00000000  {:<48} a\n              ^^\n", "61"));
        assert_eq!(context(&[0; 16], 15).lines().count(), 2);
        assert_eq!(context(&[0; 17], 16).lines().count(), 3);
    }
}
