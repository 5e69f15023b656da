//! Looking up keywords.

use super::error::{refuse, Error};
use super::memo::cut;
use super::number::parse_whole;
use super::opening::Block;
use super::rules::{is_edf, Role};
use super::span::{part, Span};
use super::statement::folded_key;

/// The place of a keyword's value, or 16.
pub fn find(file: &[u8], block: usize, key: &[u8]) -> Result<Span, Error> {
    match seek(&cut(file)?, block, key)? {
        Some(span) => Ok(span),
        None => refuse(16, 0),
    }
}

/// A keyword read as a whole number; 18 at place 0 where it is none.
pub fn whole_number(file: &[u8], block: usize, key: &[u8]) -> Result<i64, Error> {
    let span = find(file, block, key)?;
    match parse_whole(part(file, span)) {
        Some(number) => Ok(number),
        None => refuse(18, 0),
    }
}

/// "A keyword is looked up in the block's own header, any position, then, for a data block
/// and keys not starting `edf_`, in the general header."
pub fn seek(blocks: &[Block], block: usize, key: &[u8]) -> Result<Option<Span>, Error> {
    let Some(own) = blocks.get(block) else {
        return refuse(16, 0);
    };
    let sought = folded_key(key);
    let general = general_of(blocks, block).filter(|_| !is_edf(&sought));
    let places = [Some(own), general].into_iter().flatten().flat_map(|b| places_in(b, &sought));
    Ok(places.collect::<Vec<Span>>().first().copied())
}

/// The general block, for another block than itself.
fn general_of(blocks: &[Block], block: usize) -> Option<&Block> {
    blocks.first().filter(|first| block > 0 && first.facts.role == Role::General)
}

/// All places of a folded key in one header.
fn places_in(block: &Block, sought: &[u8]) -> Vec<Span> {
    block.statements.iter().filter(|s| s.key == sought).map(|s| s.value).collect()
}

#[cfg(test)]
mod tests {
    use super::super::samples::{general, one_block, padded, with_data};
    use super::*;

    fn code<T>(answer: Result<T, Error>) -> (u8, usize) {
        answer.map_or_else(|e| (e.code, e.position), |_| (0, 0))
    }

    fn found(file: &[u8], block: usize, key: &[u8]) -> Option<Vec<u8>> {
        find(file, block, key).ok().map(|span| part(file, span).to_vec())
    }

    fn two_blocks() -> Vec<u8> {
        let general = general("1", 512, "EDF_Own=g;Title=from general;Empty=x;Dim_1=3;");
        [general, with_data("1.Image.Psd", "EDF_Late=1;Empty=;Own=own;", b"ab")].concat()
    }

    #[test]
    fn own_header_then_the_general_one() {
        let file = two_blocks();
        assert_eq!(found(&file, 1, b"Own"), Some(b"own".to_vec()));
        assert_eq!(found(&file, 1, b"Title"), Some(b"from general".to_vec()));
        assert_eq!(found(&file, 1, b"Empty"), Some(b"".to_vec()));
        assert_eq!(found(&file, 0, b"Title"), Some(b"from general".to_vec()));
        assert_eq!(found(&file, 0, b"Own"), None);
    }

    #[test]
    fn edf_keys_in_the_own_header_only() {
        let file = two_blocks();
        assert_eq!(found(&file, 0, b"EDF_Own"), Some(b"g".to_vec()));
        assert_eq!(found(&file, 1, b"EDF_Own"), None);
        assert_eq!(found(&file, 1, b"EDF_Late"), Some(b"1".to_vec()));
        assert_eq!(found(&file, 1, b"EDF_DataBlockID"), Some(b"1.Image.Psd".to_vec()));
    }

    #[test]
    fn the_sought_key_is_stripped_and_folded() {
        let file = two_blocks();
        assert_eq!(found(&file, 1, b" o W\tN\r\n"), Some(b"own".to_vec()));
        for key in [&b""[..], b"  ", b"own=", b"ow", b"own\0", b"o\x80wn", &[b'k'; 65]] {
            assert_eq!(code(find(&file, 1, key)), (16, 0), "{key:?}");
        }
    }

    #[test]
    fn no_such_block_and_opening_refusals() {
        let file = two_blocks();
        assert_eq!(code(find(&file, 2, b"Title")), (16, 0));
        assert_eq!(code(find(&file, usize::MAX, b"Title")), (16, 0));
        assert_eq!(code(find(&file[..1000], 0, b"Title")), (5, 512));
        assert_eq!(code(find(b"", 0, b"Title")), (3, 0));
    }

    #[test]
    fn kind_1_has_no_general_header() {
        let file = [padded("Title=t;", 512), padded("", 512)].concat();
        assert_eq!(found(&file, 0, b"Title"), Some(b"t".to_vec()));
        assert_eq!(found(&file, 1, b"Title"), None);
    }

    #[test]
    fn the_first_data_block_is_no_general_header() {
        let file = [one_block("Title=t;", b""), with_data("2.Image.Psd", "", b"")].concat();
        assert_eq!(found(&file, 1, b"Title"), None);
    }

    #[test]
    fn keywords_as_whole_numbers() {
        let file = one_block("a=\" 1\";b=\"-5\";c=9223372036854775808;d=;", b"");
        assert_eq!(code(whole_number(&file, 0, b"a")), (18, 0));
        assert_eq!(whole_number(&file, 0, b"b"), Ok(-5));
        assert_eq!(code(whole_number(&file, 0, b"c")), (18, 0));
        assert_eq!(code(whole_number(&file, 0, b"d")), (18, 0));
        assert_eq!(code(whole_number(&file, 0, b"e")), (16, 0));
    }
}
