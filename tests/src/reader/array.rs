//! Delivering a block's array.

use super::describe::{describe_in, Description};
use super::element::{bytes_of_value, ordered, shifted, type_of, value_of_bytes, Type};
use super::error::{demand, refuse, Error};
use super::memo::cut;
use super::opening::Block;
use super::orders::{order_of, stored_places, Order};

/// An array that passed every check of `describe`, with its stored bytes.
pub struct Stored<'a> {
    pub description: Description,
    pub kind: Type,
    pub order: Order,
    pub bytes: &'a [u8],
}

/// The stored array of a block, or the refusal of its description.
pub fn stored(file: &[u8], block: usize) -> Result<Stored<'_>, Error> {
    let blocks = cut(file)?;
    let description = describe_in(file, &blocks, block)?;
    let kind = type_of(description.data_type);
    let order = order_of(description.n, i64::from(description.configuration));
    match (blocks.get(block), kind, order) {
        (Some(own), Some(kind), Some(order)) => Ok(Stored { description, kind, order, bytes: extent(file, own) }),
        _ => refuse(16, 0),
    }
}

fn extent<'a>(file: &'a [u8], block: &Block) -> &'a [u8] {
    let start = block.header.start + block.header.length;
    file.get(start..start + block.extent).unwrap_or(&[])
}

impl Stored<'_> {
    /// The value of the element at a stored place: bytes put in order, then "the offset is added last".
    pub fn value(&self, place: usize) -> i128 {
        let bytes = &self.bytes[place * self.kind.width..(place + 1) * self.kind.width];
        let value = value_of_bytes(self.kind, &ordered(bytes, self.description.order));
        shifted(self.kind, value, self.description.offset)
    }
}

/// "Delivery writes Dims' product times width bytes in the byte order asked for";
/// 24 for a bad order code just before 22.
pub fn read_array(file: &[u8], block: usize, order: u8, room: usize) -> Result<Vec<u8>, Error> {
    let stored = stored(file, block)?;
    demand(order == 1 || order == 2, 24, 0)?;
    demand(stored.description.array_length() <= room as i128, 22, 0)?;
    let places = stored_places(&stored.order, &stored.description.dims());
    Ok(places.into_iter().flat_map(|place| delivered(&stored, place, order)).collect())
}

/// Where the array of a block stands in the file, and its bytes where they are stored just as they are delivered: in configuration 1,
/// with no offset, and each element in the order asked for or of one byte.
pub struct Standing {
    pub description: Description,
    pub start: usize,
    pub length: usize,
    pub delivered: Option<Vec<u8>>,
}

/// 24 for a bad order code, after the refusals of the description.
pub fn stored_array(file: &[u8], block: usize, order: u8) -> Result<Standing, Error> {
    let bytes = read_array(file, block, order, usize::MAX)?;
    let (stored, blocks) = (stored(file, block)?, cut(file)?);
    let (description, header) = (stored.description, &blocks[block].header);
    let kept = description.configuration == 1 && description.offset == 0 && (stored.kind.width == 1 || description.order == order);
    let (start, length) = (header.start + header.length, bytes.len());
    Ok(Standing { description, start, length, delivered: kept.then_some(bytes) })
}

fn delivered(stored: &Stored, place: usize, order: u8) -> Vec<u8> {
    ordered(&bytes_of_value(stored.kind, stored.value(place)), order)
}

#[cfg(test)]
mod tests {
    use super::super::samples::{general, one_block};
    use super::*;

    fn read(more: &str, data: &[u8], order: u8) -> Vec<u8> {
        read_array(&one_block(more, data), 0, order, usize::MAX).unwrap()
    }

    fn code(more: &str, data: &[u8], order: u8, room: usize) -> (u8, usize) {
        read_array(&one_block(more, data), 0, order, room).map_or_else(|e| (e.code, e.position), |_| (0, 0))
    }

    #[test]
    fn examples_3_by_2() {
        let stored = [
            (1, [1, 2, 3, 4, 5, 6]), (2, [3, 2, 1, 6, 5, 4]), (5, [1, 4, 2, 5, 3, 6]),
            (6, [3, 6, 2, 5, 1, 4]), (7, [4, 1, 5, 2, 6, 3]),
        ];
        for (number, data) in stored {
            let more = format!("DataType=UnsignedByte;Dim_1=3;Dim_2=2;DataRasterConfiguration={number};");
            assert_eq!(read(&more, &data, 1), [1, 2, 3, 4, 5, 6], "{number}");
        }
    }

    #[test]
    fn examples_of_offsets() {
        assert_eq!(read("DataType=UnsignedShort;Dim_1=1;DataValueOffset=10;", &[0xff, 0xfa], 1), [0xff, 0xff]);
        assert_eq!(read("DataType=UnsignedByte;Dim_1=1;DataValueOffset=-5;", &[3], 1), [0]);
    }

    #[test]
    fn byte_orders() {
        for (name, as_high) in [("HighByteFirst", [1, 2, 3, 4]), ("LowByteFirst", [2, 1, 4, 3])] {
            let more = format!("DataType=UnsignedShort;Dim_1=2;ByteOrder={name};");
            assert_eq!(read(&more, &[1, 2, 3, 4], 1), as_high);
            let as_low: Vec<u8> = [as_high[1], as_high[0], as_high[3], as_high[2]].to_vec();
            assert_eq!(read(&more, &[1, 2, 3, 4], 2), as_low);
        }
    }

    #[test]
    fn the_offset_comes_after_byte_order() {
        let more = "DataType=UnsignedShort;ByteOrder=LowByteFirst;Dim_1=1;DataValueOffset=1;";
        assert_eq!(read(more, &[0xff, 0x00], 1), [0x01, 0x00]);
        assert_eq!(read(more, &[0xff, 0x00], 2), [0x00, 0x01]);
    }

    #[test]
    fn nan_bits_are_moved() {
        let bytes = [0x7f, 0x80, 0x12, 0x34, 0xff, 0xc0, 0, 1];
        assert_eq!(read("Dim_1=2;", &bytes, 1), bytes);
        assert_eq!(read("Dim_1=1;DataType=FloatIEEE64;", &bytes, 2), [1, 0, 0xc0, 0xff, 0x34, 0x12, 0x80, 0x7f]);
    }

    #[test]
    fn refusals_in_order() {
        let more = "DataType=UnsignedShort;Dim_1=2;";
        assert_eq!(code(more, &[0; 4], 1, 4), (0, 0));
        assert_eq!(code(more, &[0; 4], 2, 3), (22, 0));
        assert_eq!(code(more, &[0; 4], 0, 3), (24, 0));
        assert_eq!(code(more, &[0; 4], 3, 4), (24, 0));
        assert_eq!(code(more, &[0; 3], 3, 0), (20, 0));
        assert_eq!(code("", &[], 1, 0), (0, 0));
        assert_eq!(code("", &[], 0, 0), (24, 0));
    }

    #[test]
    fn no_array_of_the_general_block() {
        let file = [general("1", 512, ""), one_block("", &[])].concat();
        assert_eq!(read_array(&file, 0, 1, 0), Err(Error { code: 16, position: 0 }));
        assert_eq!(read_array(&file, 1, 1, 0), Ok(vec![]));
        assert_eq!(read_array(&file, 2, 9, 0), Err(Error { code: 16, position: 0 }));
    }
}
