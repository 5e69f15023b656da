//! Where a described field came from: 02, No. 1.

use super::keywords::seek;
use super::opening::Block;
use super::span::Span;

/// "own header, general header, or default".
#[derive(Clone, Copy, Debug, PartialEq, Eq)]
pub enum Origin {
    Own,
    General,
    Default,
}

/// The keys that the origins of the seven fields are those of ("Dim: that of Dim_1").
const KEYS: [&str; 7] =
    ["DataType", "ByteOrder", "Compression", "Dim_1", "DataRasterConfiguration", "RasterOrientation", "DataValueOffset"];

/// "Each of the seven described fields carries an origin".
pub fn origins(blocks: &[Block], block: usize) -> [Origin; 7] {
    KEYS.map(|key| origin(blocks, block, key))
}

/// By the header that the value stands in; a value that stands nowhere is the default.
fn origin(blocks: &[Block], block: usize, key: &str) -> Origin {
    match seek(blocks, block, key.as_bytes()).ok().flatten() {
        None => Origin::Default,
        Some(value) if stands_in(&blocks[block], value) => Origin::Own,
        Some(_) => Origin::General,
    }
}

/// A value in the header of this block.
fn stands_in(block: &Block, value: Span) -> bool {
    let end = block.header.start + block.header.length;
    (block.header.start..end).contains(&value.start)
}

/// "The lister prints o, g or d".
pub fn letter(origin: Origin) -> char {
    match origin {
        Origin::Own => 'o',
        Origin::General => 'g',
        Origin::Default => 'd',
    }
}

#[cfg(test)]
mod tests {
    use super::super::describe::describe;
    use super::super::samples::{general, one_block, padded, with_data};
    use super::*;

    /// The letters of the seven fields of a block.
    fn letters(file: &[u8], block: usize) -> String {
        describe(file, block).unwrap().origins.map(letter).iter().collect()
    }

    /// A general header with some statements, and one data block with others and 64 bytes.
    fn two(shared: &str, own: &str) -> String {
        letters(&[general("1", 512, shared), one_block(own, &[0; 64])].concat(), 1)
    }

    const ALL: &str = "DataType=SignedByte;ByteOrder=LowByteFirst;Compression=None;Dim_1=2;\
        DataRasterConfiguration=2;RasterOrientation=2;DataValueOffset=-1;";

    #[test]
    fn all_from_one_place() {
        assert_eq!(two("", ""), "ddddddd");
        assert_eq!(two(ALL, ""), "ggggggg");
        assert_eq!(two("", ALL), "ooooooo");
        assert_eq!(two(ALL, ALL), "ooooooo");
    }

    #[test]
    fn each_field_by_itself() {
        for (field, statement) in ALL.split_inclusive(';').enumerate() {
            let expected = |letter: char| (0..7).map(|other| if other == field { letter } else { 'd' }).collect::<String>();
            // An offset needs a type that is no float.
            let given = if field == 6 { "DataValueOffset=0;" } else { statement };
            assert_eq!(two("", given), expected('o'), "{given}");
            assert_eq!(two(given, ""), expected('g'), "{given}");
            assert_eq!(two(given, given), expected('o'), "{given}");
        }
    }

    #[test]
    fn a_written_default_is_written() {
        let written = "DataType=FloatIEEE32;ByteOrder=HighByteFirst;Compression=None;DataRasterConfiguration=1;\
            RasterOrientation=1;DataValueOffset=0;";
        assert_eq!(two("", written), "ooodooo");
        assert_eq!(two(written, ""), "gggdggg");
    }

    #[test]
    fn dims_have_the_origin_of_the_first() {
        assert_eq!(two("Dim_1=2;", "Dim_2=3;"), "dddgddd");
        assert_eq!(two("Dim_2=3;", "Dim_1=2;"), "dddoddd");
        assert_eq!(two("Dim_2=3;", "Dim_3=3;"), "ddddddd");
        assert_eq!(two("", "Dim_2=3;Dim_3=3;"), "ddddddd");
    }

    #[test]
    fn keys_are_stripped_and_folded() {
        assert_eq!(two(" d I m _ 1\t=2;", "data\r\nTYPE =SignedByte;"), "oddgddd");
        assert_eq!(two("EDF_Dim_1=2;", "EDF_DataType=SignedByte;"), "ddddddd");
    }

    #[test]
    fn only_a_general_header_is_inherited() {
        let plain = [padded("DataType=SignedByte;", 512), padded("", 512)].concat();
        assert_eq!((letters(&plain, 0), letters(&plain, 1)), ("odddddd".to_string(), "ddddddd".to_string()));
        let data = [one_block("DataType=SignedByte;", b""), with_data("2.Image.Psd", "", b"")].concat();
        assert_eq!((letters(&data, 0), letters(&data, 1)), ("odddddd".to_string(), "ddddddd".to_string()));
    }
}
