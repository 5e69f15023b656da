//! Opening a file into its table of blocks.

use super::error::{demand, Error};
use super::header::{braced_header, patterned_header, with_pattern, Header};
use super::memo::cut;
use super::rules::{facts, role_of_first, role_of_other, Count, Facts, Role};
use super::statement::{check_statements, read_statements, Statement};
use super::white::first_solid;

/// 1: "file over 1,073,741,824 bytes".
pub const LONGEST_FILE: usize = 1_073_741_824;

/// "A file is 1 to 256 blocks".
pub const MOST_BLOCKS: usize = 256;

/// "else 512".
const BOUNDARY: i64 = 512;

/// A row of the table; "kind of block (0 general, 1 data)".
#[derive(Clone, Copy, Debug, PartialEq, Eq)]
pub struct Row {
    pub start: usize,
    pub header_length: usize,
    pub data_length: usize,
    pub kind: u8,
    pub sequence: i64,
    pub instance: u8,
    pub memory: i64,
}

/// A block of the cut.
#[derive(Clone, Debug)]
pub struct Block {
    pub header: Header,
    pub statements: Vec<Statement>,
    pub facts: Facts,
    pub extent: usize,
}

/// "Opening answers the cut's block count and gives a table row for each of its blocks, in order".
pub fn open(file: &[u8], table_rows: usize) -> Result<Vec<Row>, Error> {
    demand(file.len() <= LONGEST_FILE, 1, 0)?;
    demand(table_rows >= MOST_BLOCKS, 2, 0)?;
    Ok(cut(file)?.iter().map(row).collect())
}

/// The cut of a file, for calls on a block: "an opening refusal first (but 2)".
pub fn cut_anew(file: &[u8]) -> Result<Vec<Block>, Error> {
    demand(file.len() <= LONGEST_FILE, 1, 0)?;
    let mut blocks = vec![first_block(file)?];
    while let Some(start) = next_start(file, &blocks) {
        demand(blocks.len() < MOST_BLOCKS, 14, start)?;
        blocks.push(next_block(file, start, &blocks)?);
    }
    demand(count_kept(&blocks), 15, 0)?;
    Ok(blocks)
}

/// Where the next block starts, none at the end of the file. "in kind 1, white may stand before the first header, between blocks and after
/// the last, in no row".
fn next_start(file: &[u8], before: &[Block]) -> Option<usize> {
    let end = before.last().map_or(0, |block| block.header.start + block.header.length + block.extent);
    let start = match before.first().map(|first| first.facts.role) {
        Some(Role::General | Role::Data) => end,
        Some(Role::Plain) | None => first_solid(file, end),
    };
    Some(start).filter(|&start| start < file.len())
}

/// "Until the first header has passed check 6 it is judged as kind 1".
fn first_block(file: &[u8]) -> Result<Block, Error> {
    let start = next_start(file, &[]).unwrap_or(file.len());
    let header = braced_header(file, start)?;
    let statements = read_statements(file, &header)?;
    let role = role_of_first(&statements);
    let header = if role == Role::Plain { header } else { with_pattern(file, header)? };
    judged(file, header, statements, role, &[])
}

/// A later block at `start`: a header of kind 1 starts with its brace, one of kind 2 with its pattern.
fn next_block(file: &[u8], start: usize, before: &[Block]) -> Result<Block, Error> {
    let role = role_of_other(before[0].facts.role);
    let header = if role == Role::Plain { braced_header(file, start)? } else { patterned_header(file, start)? };
    let statements = read_statements(file, &header)?;
    judged(file, header, statements, role, before)
}

/// A block whose header passed check 6, judged "in the order below".
fn judged(file: &[u8], header: Header, statements: Vec<Statement>, role: Role, before: &[Block]) -> Result<Block, Error> {
    let start = header.start;
    check_statements(file, &header, &statements)?;
    let Some(facts) = facts(file, role, &statements) else {
        return Err(Error { code: 9, position: start });
    };
    demand(!facts.external, 10, start)?;
    let boundary = before.first().map_or(facts.boundary, |first| first.facts.boundary);
    demand(role == Role::Plain || length_kept(&header, &facts, boundary.unwrap_or(BOUNDARY)), 11, start)?;
    let room = (file.len() - start - header.length) as i128;
    demand(i128::from(facts.extent) <= room, 12, start)?;
    demand(!identity_used(before, &facts), 13, start)?;
    let extent = facts.extent as usize;
    Ok(Block { header, statements, facts, extent })
}

/// 11: "length not a multiple, or not EDF_HeaderSize"; "11 in kind 2 only".
fn length_kept(header: &Header, facts: &Facts, boundary: i64) -> bool {
    let length = header.length as i128;
    let as_said = facts.header_size.map_or(length, i128::from);
    length % i128::from(boundary) == 0 && length == as_said
}

/// 13: "No two of these blocks have the same three values."
fn identity_used(before: &[Block], facts: &Facts) -> bool {
    facts.identity.is_some() && before.iter().any(|block| block.facts.identity == facts.identity)
}

/// 15: "equal to the blocks beside the general one, or `Undetermined` where there is just one".
fn count_kept(blocks: &[Block]) -> bool {
    let data_blocks = blocks.iter().filter(|block| block.facts.role == Role::Data).count();
    match blocks.first().and_then(|first| first.facts.count) {
        None => true,
        Some(Count::Undetermined) => data_blocks == 1,
        Some(Count::Whole(count)) => i128::from(count) == data_blocks as i128,
    }
}

/// "The last three are 0 for a general block and in kind 1."
fn row(block: &Block) -> Row {
    let identity = block.facts.identity;
    Row {
        start: block.header.start,
        header_length: block.header.length,
        data_length: block.extent,
        kind: u8::from(block.facts.role != Role::General),
        sequence: identity.map_or(0, |i| i.sequence),
        instance: identity.map_or(0, |i| i.instance),
        memory: identity.map_or(0, |i| i.memory),
    }
}

#[cfg(test)]
mod tests {
    use super::super::samples::{data_block, general, header_of, padded};
    use super::*;

    fn refusal(file: &[u8]) -> (u8, usize) {
        open(file, 256).map_or_else(|e| (e.code, e.position), |rows| (0, rows.len()))
    }

    #[test]
    fn limits_of_file_and_table() {
        assert_eq!(open(&vec![0; LONGEST_FILE + 1], 0), Err(Error { code: 1, position: 0 }));
        assert_eq!(open(&vec![0; LONGEST_FILE], 256), Err(Error { code: 3, position: 0 }));
        assert_eq!(open(b"", 255), Err(Error { code: 2, position: 0 }));
        assert_eq!(open(b"", 256), Err(Error { code: 3, position: 0 }));
    }

    #[test]
    fn rows_of_kind_2() {
        let file = [general("2", 512, ""), data_block("-1.Image.Error.5", 3), data_block("4.Image.Psd", 0)].concat();
        let row = |start, data_length, kind, sequence, instance, memory| Row {
            start, header_length: 512, data_length, kind, sequence, instance, memory,
        };
        assert_eq!(open(&file, 300), Ok(vec![row(0, 0, 0, 0, 0, 0), row(512, 3, 1, -1, 2, 5), row(1027, 0, 1, 4, 1, 1)]));
    }

    #[test]
    fn rows_of_kind_1() {
        let file = [padded("Size=2;EDF_BinarySize=x;", 512), b"ab".to_vec(), padded("", 512)].concat();
        let rows = open(&file, 256).unwrap();
        assert_eq!(places(&file), [(0, 512, 2), (514, 512, 0)]);
        assert!(rows.iter().all(|r| (r.kind, r.sequence, r.instance, r.memory) == (1, 0, 0, 0)));
    }

    /// The first three numbers of each row.
    fn places(file: &[u8]) -> Vec<(usize, usize, usize)> {
        let rows = open(file, 256).unwrap();
        rows.iter().map(|row| (row.start, row.header_length, row.data_length)).collect()
    }

    #[test]
    fn header_512_accepted_and_511_refused() {
        assert_eq!(refusal(&padded("EDF_DataBlockID=1.Image.Psd;", 512)), (0, 1));
        assert_eq!(refusal(&padded("EDF_DataBlockID=1.Image.Psd;", 511)), (11, 0));
        assert_eq!(refusal(&padded("", 512)), (0, 1));
        assert_eq!(refusal(&padded("", 511)), (0, 1));
        assert_eq!(refusal(&padded("EDF_DataBlockID=1.Image.Psd;", 65_536)), (0, 1));
        assert_eq!(refusal(&padded("EDF_DataBlockID=1.Image.Psd;", 66_048)), (5, 0));
    }

    #[test]
    fn white_in_kind_1_is_in_no_row() {
        assert_eq!(places(b" \t\n\r\x0b\x0c{}\n"), [(6, 3, 0)]);
        assert_eq!(places(b"{}\n \t\n\r\x0b\x0c{}\n"), [(0, 3, 0), (9, 3, 0)]);
        assert_eq!(places(b"{}\n \t\n\r\x0b\x0c"), [(0, 3, 0)]);
        assert_eq!(places(b"{Size=2;}\n   {}\n"), [(0, 10, 2), (13, 3, 0)]);
        assert_eq!(refusal(b"{}\n\0{}\n"), (3, 3));
        assert_eq!(refusal(b"{}\n x"), (3, 4));
        assert_eq!(refusal(b" \n "), (3, 3));
        assert_eq!(refusal(b"\r\n{Size=x;}\n"), (9, 2));
    }

    #[test]
    fn white_in_kind_2() {
        let file = |lead: &str| [lead.as_bytes(), &padded("EDF_DataBlockID=1.Image.Psd;", 512 - lead.len())].concat();
        for (lead, expected) in [("", (0, 1)), ("\n", (0, 1)), ("\r\n", (0, 1)), (" ", (3, 0)), ("\r", (3, 0)), ("\n\n", (3, 0))] {
            assert_eq!(refusal(&file(lead)), expected, "{lead:?}");
        }
        assert_eq!(refusal(&[&file("")[..], b"\n"].concat()), (3, 512));
        assert_eq!(refusal(b" {EDF_x=;edf_X=;}\n"), (3, 0));
        assert_eq!(refusal(b" {EDF_x=;y;}\n"), (6, 1));
        assert_eq!(refusal(b"\r\n{EDF_x=;}\n"), (9, 0));
        assert_eq!(refusal(b"\n{EDF_x=;edf_X=;}\n"), (8, 0));
    }

    #[test]
    fn header_size() {
        let with = |size: &str| refusal(&padded(&format!("EDF_DataBlockID=1.Image.Psd;EDF_HeaderSize={size};"), 512));
        assert_eq!(with("512"), (0, 1));
        assert_eq!(with("+0512"), (0, 1));
        assert_eq!(with("1024"), (11, 0));
        assert_eq!(with("-512"), (11, 0));
        assert_eq!(with("x"), (9, 0));
    }

    #[test]
    fn external_file_before_length() {
        let body = "EDF_DataBlockID=1.Image.Psd;EDF_BinaryFileName=a;EDF_HeaderSize=1;";
        assert_eq!(refusal(&padded(body, 512)), (10, 0));
    }

    #[test]
    fn boundary_of_the_general_header() {
        let file = |boundary: &str, general: usize, data: usize| {
            let body = format!("EDF_DataFormatVersion=2.42;EDF_DataBlocks=1;EDF_BlockBoundary={boundary};");
            [padded(&body, general), padded("EDF_DataBlockID=1.Image.Psd;", data)].concat()
        };
        assert_eq!(refusal(&file("7", 700, 70)), (0, 2));
        assert_eq!(refusal(&file("7", 701, 70)), (11, 0));
        assert_eq!(refusal(&file("7", 700, 512)), (11, 700));
        assert_eq!(refusal(&file("65536", 65_536, 65_536)), (0, 2));
        assert_eq!(refusal(&file("65537", 65_536, 65_536)), (11, 0));
        assert_eq!(refusal(&file("9223372036854775807", 512, 512)), (11, 0));
    }

    #[test]
    fn extent_one_byte_past() {
        let mut file = data_block("1.Image.Psd", 12);
        assert_eq!(refusal(&file), (0, 1));
        file.pop();
        assert_eq!(refusal(&file), (12, 0));
        assert_eq!(refusal(&padded("Size=9223372036854775807;", 512)), (12, 0));
    }

    #[test]
    fn identity_twice_by_value() {
        let pair = |a: &str, b: &str| refusal(&[data_block(a, 1), data_block(b, 1)].concat());
        assert_eq!(pair("1.Image.Psd", "+01.Image.Psd"), (13, 513));
        assert_eq!(pair("1.Image.Psd", "1.Image.Error"), (0, 2));
        assert_eq!(pair("1.Image.Psd", "1.Image.Psd.2"), (0, 2));
        assert_eq!(pair("1.Image.Psd.02", "1.Image.Psd.2"), (13, 513));
        assert_eq!(pair("0.Image.Psd", "-0.Image.Psd"), (13, 513));
    }

    #[test]
    fn bytes_left_after_256_blocks() {
        let mut file = b"{}\n".repeat(256);
        assert_eq!(refusal(&file), (0, 256));
        file.extend(b" \n");
        assert_eq!(refusal(&file), (0, 256));
        file.push(b'x');
        assert_eq!(refusal(&file), (14, 770));
    }

    #[test]
    fn fourteen_before_fifteen() {
        let mut file = general("1", 512, "");
        (0..256).for_each(|i| file.extend(data_block(&format!("{i}.Image.Psd"), 0)));
        assert_eq!(refusal(&file[..512 * 256]), (15, 0));
        assert_eq!(refusal(&file), (14, 131_072));
        file.truncate(512 * 256);
        file.push(b'\n');
        assert_eq!(refusal(&file), (14, 131_072));
    }

    #[test]
    fn counts_of_data_blocks() {
        let with = |count: &str, blocks: usize| {
            let data = (0..blocks).flat_map(|i| data_block(&format!("{i}.Image.Psd"), 0));
            refusal(&general(count, 512, "").into_iter().chain(data).collect::<Vec<u8>>())
        };
        assert_eq!(with("1", 1), (0, 2));
        assert_eq!(with("1", 0), (15, 0));
        assert_eq!(with("2", 1), (15, 0));
        assert_eq!(with("+02", 2), (0, 3));
        assert_eq!(with("Undetermined", 0), (15, 0));
        assert_eq!(with("Undetermined", 1), (0, 2));
        assert_eq!(with("Undetermined", 2), (15, 0));
        assert_eq!(with("9223372036854775807", 2), (15, 0));
    }

    #[test]
    fn later_headers_of_kind_2() {
        let second = |body: &str| refusal(&[data_block("1.Image.Psd", 0), padded(body, 512)].concat());
        assert_eq!(second(""), (9, 512));
        assert_eq!(second("Title=;"), (9, 512));
        assert_eq!(second("EDF_DataFormatVersion=2.42;EDF_DataBlocks=1;"), (9, 512));
        assert_eq!(second("EDF_DataBlockID=2.Image.Psd;"), (0, 2));
    }

    #[test]
    fn keys_of_the_general_header_are_ignored_elsewhere() {
        let body = "EDF_DataBlockID=1.Image.Psd;EDF_DataFormatVersion=x;EDF_DataBlocks=x;EDF_BlockBoundary=7;";
        assert_eq!(refusal(&padded(body, 512)), (0, 1));
        let file = [general("1", 512, "EDF_DataBlockID=x;"), data_block("1.Image.Psd", 0)].concat();
        assert_eq!(refusal(&file), (0, 2));
        let file = [general("1", 515, "EDF_BinarySize=3;"), b"abc".to_vec()].concat();
        assert_eq!(refusal(&file), (11, 0));
    }

    #[test]
    fn a_general_header_may_have_an_extent() {
        let file = [general("1", 512, "EDF_BinarySize=3;"), b"abc".to_vec(), data_block("1.Image.Psd", 0)].concat();
        assert_eq!(refusal(&file), (0, 2));
        assert_eq!(open(&file, 256).unwrap()[0].data_length, 3);
    }

    #[test]
    fn an_edf_key_after_title_does_not_count() {
        let file = [header_of("EDF_DataBlockID=1.Image.Psd;Title=t;EDF_BinarySize=3;"), b"abc".to_vec()].concat();
        assert_eq!(refusal(&file), (3, 512));
    }
}
