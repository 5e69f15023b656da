//! The lister.

use super::describe::{describe_in, Description};
use super::element::{type_of, BYTE_ORDERS};
use super::error::{demand, Error};
use super::identity::identity_text;
use super::memo::cut;
use super::opening::Block;
use super::origin::letter;
use super::rules::Role;

/// "It reads standard input, up to 65,536 bytes (more: `refused 1 0`)."
const LONGEST_INPUT: usize = 65_536;

/// What the lister prints for its input.
pub fn printed(input: &[u8]) -> Vec<u8> {
    if input.len() > LONGEST_INPUT {
        return b"refused 1 0\n".to_vec();
    }
    listing(input)
}

/// The listing of a file of any length; 22 where the room is too small.
pub fn list(file: &[u8], room: usize) -> Result<Vec<u8>, Error> {
    let text = listing(file);
    demand(text.len() <= room, 22, 0)?;
    Ok(text)
}

/// "A file that does not open gives one line only".
fn listing(file: &[u8]) -> Vec<u8> {
    let lines = match cut(file) {
        Err(error) => vec![refusal(error)],
        Ok(blocks) => lines(file, &blocks),
    };
    lines.into_iter().flat_map(|line| format!("{line}\n").into_bytes()).collect()
}

/// "`refused`, number, place".
fn refusal(error: Error) -> String {
    format!("refused {} {}", error.code, error.position)
}

/// "It prints `blocks` and the count, then a line per block".
fn lines(file: &[u8], blocks: &[Block]) -> Vec<String> {
    let count = format!("blocks {}", blocks.len());
    let lines = (0..blocks.len()).map(|block| block_line(file, blocks, block));
    [count].into_iter().chain(lines).collect()
}

/// "number, start, header and extent length, identity (`general`, or `-` in kind 1), then ...;
/// nothing after `general`; `refused`, number, place if not described."
fn block_line(file: &[u8], blocks: &[Block], number: usize) -> String {
    let block = &blocks[number];
    let places = format!("{} {} {} {}", number, block.header.start, block.header.length, block.extent);
    let named = format!("{places} {}", name(block));
    if block.facts.role == Role::General {
        return named;
    }
    match describe_in(file, blocks, number) {
        Ok(description) => format!("{named} {}", description_text(&description)),
        Err(error) => format!("{named} {}", refusal(error)),
    }
}

fn name(block: &Block) -> String {
    match (block.facts.role, &block.facts.identity) {
        (Role::General, _) => "general".to_string(),
        (_, Some(identity)) => identity_text(identity),
        (_, None) => "-".to_string(),
    }
}

/// "type, order, Dims joined by `x`, configuration, orientation, offset", and 02: "o, g or d straight after each field's text".
/// Compression has no text here, so it has no letter.
fn description_text(d: &Description) -> String {
    let kind = type_of(d.data_type).map_or("", |kind| kind.name).to_string();
    let order = BYTE_ORDERS[usize::from(d.order == 2)].to_string();
    let dims: Vec<String> = d.dims()[..usize::from(d.n)].iter().map(|dim| dim.to_string()).collect();
    let [configuration, orientation] = [d.configuration, d.orientation].map(|number| number.to_string());
    let texts = [kind, order, dims.join("x"), configuration, orientation, d.offset.to_string()];
    let [of_type, of_order, _of_compression, of_dims, of_configuration, of_orientation, of_offset] = d.origins.map(letter);
    let letters = [of_type, of_order, of_dims, of_configuration, of_orientation, of_offset];
    let columns: Vec<String> = texts.iter().zip(letters).map(|(text, letter)| format!("{text}{letter}")).collect();
    columns.join(" ")
}

#[cfg(test)]
mod tests {
    use super::super::samples::{general, one_block, padded};
    use super::super::writer::{write, Frame};
    use super::*;

    fn listed(file: &[u8]) -> String {
        String::from_utf8(printed(file)).unwrap()
    }

    #[test]
    fn example() {
        let frame = Frame {
            sequence: 1, instance: 1, memory: 1, data_type: 3, order: 1, n: 2, dim_1: 3, dim_2: 2, dim_3: 0, configuration: 6,
        };
        let file = write(frame, b"x;", &[0, 1, 0, 2, 0, 3, 0, 4, 0, 5, 0, 6], 9_999).unwrap();
        let expected = "blocks 1\n0 0 512 512 1.Image.Psd UnsignedShorto HighByteFirsto 3x2o 6o 1d 0d\n";
        assert_eq!(listed(&file), expected);
    }

    #[test]
    fn general_and_empty_array() {
        let file = [general("1", 512, ""), one_block("", b"")].concat();
        let expected = "blocks 2\n0 0 512 0 general\n1 512 512 0 1.Image.Psd FloatIEEE32d HighByteFirstd 0d 1d 1d 0d\n";
        assert_eq!(listed(&file), expected);
    }

    #[test]
    fn letters() {
        let shared = "DataType=UnsignedByte;Compression=None;RasterOrientation=1;Dim_1=3;";
        let own = "ByteOrder=HighByteFirst;Dim_2=2;DataValueOffset=-1;";
        let file = [general("1", 512, shared), one_block(own, &[0; 6])].concat();
        let line = "1 512 512 6 1.Image.Psd UnsignedByteg HighByteFirsto 3x2g 1d 1g -1o";
        assert_eq!(listed(&file).lines().last(), Some(line));
    }

    #[test]
    fn refusals() {
        assert_eq!(listed(b""), "refused 3 0\n");
        assert_eq!(listed(&padded("Dim_1=0;", 512)), "blocks 1\n0 0 512 0 - refused 18 4\n");
        assert_eq!(listed(&vec![0; 65_537]), "refused 1 0\n");
        assert_eq!(listed(&vec![0; 65_536]), "refused 3 0\n");
        assert_eq!(listed(&padded("", 65_536)).lines().next(), Some("blocks 1"));
    }

    #[test]
    fn the_library_has_no_limit_of_input_but_one_of_room() {
        let file = padded("", 512).repeat(129);
        assert_eq!(printed(&file), b"refused 1 0\n");
        let text = list(&file, usize::MAX).unwrap();
        assert!(text.starts_with(b"blocks 129\n0 0 512 0 - FloatIEEE32d HighByteFirstd 0d 1d 1d 0d\n1 512 512 0 - "));
        assert_eq!(list(&file, text.len()), Ok(text.clone()));
        assert_eq!(list(&file, text.len() - 1), Err(Error { code: 22, position: 0 }));
        assert_eq!(list(b"", 12), Ok(b"refused 3 0\n".to_vec()));
        assert_eq!(list(b"", 11), Err(Error { code: 22, position: 0 }));
        assert_eq!(list(b"", 0), Err(Error { code: 22, position: 0 }));
    }
}
