//! Describing a block's array: checks 16 to 21.

use super::element::{type_of, Form, BYTE_ORDERS, TYPES};
use super::error::{demand, refuse, Error};
use super::keywords::seek;
use super::memo::cut;
use super::number::parse_whole;
use super::opening::Block;
use super::orders::all_orders;
use super::origin::{origins, Origin};
use super::rules::Role;
use super::span::part;

/// "Dim_1 to Dim_3 | 1 to 1,048,576".
pub const LARGEST_DIM: i64 = 1_048_576;

/// The fields of an array. Codes count from 1 in the order of 01's table; Dims past N are 1 (000's default). The origins are those of
/// the seven fields, in the table's order.
#[derive(Clone, Copy, Debug, PartialEq, Eq)]
pub struct Description {
    pub data_type: u8,
    pub order: u8,
    pub compression: u8,
    pub n: u8,
    pub dim_1: usize,
    pub dim_2: usize,
    pub dim_3: usize,
    pub configuration: u32,
    pub orientation: u32,
    pub offset: i64,
    pub origins: [Origin; 7],
}

impl Description {
    pub fn dims(&self) -> [usize; 3] {
        [self.dim_1, self.dim_2, self.dim_3]
    }

    /// "Dims' product times width bytes".
    pub fn array_length(&self) -> i128 {
        let elements: i128 = self.dims().iter().map(|&dim| dim as i128).product();
        elements * type_of(self.data_type).map_or(0, |kind| kind.width) as i128
    }
}

/// The description of a block's array.
pub fn describe(file: &[u8], block: usize) -> Result<Description, Error> {
    describe_in(file, &cut(file)?, block)
}

/// The same, in a file already cut.
pub fn describe_in(file: &[u8], blocks: &[Block], block: usize) -> Result<Description, Error> {
    let Some(own) = blocks.get(block) else {
        return refuse(16, 0);
    };
    demand(own.facts.role != Role::General, 16, 0)?;
    let fields = Fields { file, blocks, block };
    let description = fields.description()?;
    demand(description.array_length() <= own.extent as i128, 20, 0)?;
    demand(description.offset == 0 || !is_float(&description), 21, 0)?;
    Ok(description)
}

fn is_float(description: &Description) -> bool {
    type_of(description.data_type).is_some_and(|kind| kind.form == Form::Float)
}

/// "Fields, found like any keyword".
struct Fields<'a> {
    file: &'a [u8],
    blocks: &'a [Block],
    block: usize,
}

impl Fields<'_> {
    /// "are checked in this order".
    fn description(&self) -> Result<Description, Error> {
        let names: Vec<&str> = TYPES.iter().map(|kind| kind.name).collect();
        let data_type = self.word(1, "DataType", &names, 7)?;
        let order = self.word(2, "ByteOrder", &BYTE_ORDERS, 1)?;
        let compression = self.word(3, "Compression", &["None"], 1)?;
        let (n, [dim_1, dim_2, dim_3]) = self.dims()?;
        demand(!self.four_dims(), 19, 0)?;
        let configurations = all_orders(n).len() as i64;
        let configuration = self.number(5, "DataRasterConfiguration", 1, configurations, 1)? as u32;
        let orientation = self.number(6, "RasterOrientation", 1, configurations, 1)? as u32;
        let offset = self.number(7, "DataValueOffset", i64::MIN, i64::MAX, 0)?;
        let origins = origins(self.blocks, self.block);
        Ok(Description { data_type, order, compression, n, dim_1, dim_2, dim_3, configuration, orientation, offset, origins })
    }

    fn value(&self, key: &str) -> Option<&[u8]> {
        let place = seek(self.blocks, self.block, key.as_bytes()).ok().flatten();
        place.map(|span| part(self.file, span))
    }

    /// "words by exact bytes": the code of the word, or 17.
    fn word(&self, field: usize, key: &str, words: &[&str], default: u8) -> Result<u8, Error> {
        let Some(value) = self.value(key) else {
            return Ok(default);
        };
        match words.iter().zip(1..).find(|(word, _)| word.as_bytes() == value) {
            Some((_, code)) => Ok(code),
            None => refuse(17, field),
        }
    }

    /// A whole number in its range, or 18.
    fn number(&self, field: usize, key: &str, least: i64, most: i64, default: i64) -> Result<i64, Error> {
        let Some(value) = self.value(key) else {
            return Ok(default);
        };
        match parse_whole(value).filter(|number| (least..=most).contains(number)) {
            Some(number) => Ok(number),
            None => refuse(18, field),
        }
    }

    /// "N is the largest J with Dim_1 to Dim_J all found; the values of other Dim keys are not read.
    /// With no Dim_1, N is 1 and Dim_1 is 0".
    fn dims(&self) -> Result<(u8, [usize; 3]), Error> {
        let found: Vec<&str> =
            ["Dim_1", "Dim_2", "Dim_3"].into_iter().take_while(|key| self.value(key).is_some()).collect();
        let mut dims = [usize::from(!found.is_empty()), 1, 1];
        for (dim, key) in dims.iter_mut().zip(&found) {
            *dim = self.number(4, key, 1, LARGEST_DIM, 1)? as usize;
        }
        Ok((found.len().max(1) as u8, dims))
    }

    /// 19: "Dim_1 to Dim_4 all found".
    fn four_dims(&self) -> bool {
        ["Dim_1", "Dim_2", "Dim_3", "Dim_4"].iter().all(|key| self.value(key).is_some())
    }
}

#[cfg(test)]
mod tests {
    use super::super::samples::{general, one_block, with_data};
    use super::*;

    fn code(more: &str) -> (u8, usize) {
        let file = one_block(more, &[0; 64]);
        describe(&file, 0).map_or_else(|e| (e.code, e.position), |_| (0, 0))
    }

    fn described(more: &str) -> Description {
        describe(&one_block(more, &[0; 64]), 0).unwrap()
    }

    #[test]
    fn defaults() {
        let empty = Description {
            data_type: 7, order: 1, compression: 1, n: 1, dim_1: 0, dim_2: 1, dim_3: 1,
            configuration: 1, orientation: 1, offset: 0, origins: [Origin::Default; 7],
        };
        assert_eq!(described(""), empty);
        assert_eq!(described("Dim_2=x;Dim_3=x;Dim_4=x;"), empty);
    }

    #[test]
    fn all_words() {
        for (i, kind) in TYPES.iter().enumerate() {
            assert_eq!(usize::from(described(&format!("DataType={};", kind.name)).data_type), i + 1);
        }
        assert_eq!(described("ByteOrder=LowByteFirst;Compression=None;").order, 2);
    }

    #[test]
    fn unknown_words() {
        for word in ["UnsignedLong", "Unsigned16", "FloatValue", "Float", "unsignedshort", "UnsignedShort\t x", ""] {
            assert_eq!(code(&format!("DataType={word};")), (17, 1), "{word}");
        }
        assert_eq!(code("ByteOrder=BigEndian;"), (17, 2));
        assert_eq!(code("Compression=UnCompressed;"), (17, 3));
        assert_eq!(code("Compression=x;ByteOrder=x;DataType=x;"), (17, 1));
    }

    #[test]
    fn dims_and_n() {
        let n = |more| (described(more).n, described(more).dims());
        assert_eq!(n("DataType=SignedByte;Dim_1=3;Dim_3=x;"), (1, [3, 1, 1]));
        assert_eq!(n("DataType=SignedByte;Dim_1=3;Dim_2=2;Dim_4=x;"), (2, [3, 2, 1]));
        assert_eq!(n("DataType=SignedByte;Dim_1=3;Dim_2=2;Dim_3=4;"), (3, [3, 2, 4]));
    }

    #[test]
    fn ranges_of_dims() {
        assert_eq!(code("Dim_1=0;"), (18, 4));
        assert_eq!(code("Dim_1=-1;"), (18, 4));
        assert_eq!(code("Dim_1=1048576;"), (20, 0));
        assert_eq!(code("Dim_1=1048577;"), (18, 4));
        assert_eq!(code("Dim_1=1;Dim_2=1;Dim_3=;"), (18, 4));
        assert_eq!(code("Dim_1=1048576;Dim_2=1048576;Dim_3=1048576;DataType=Unsigned64;"), (20, 0));
    }

    #[test]
    fn four_dims_after_field_4() {
        assert_eq!(code("Dim_1=1;Dim_2=1;Dim_3=1;Dim_4=x;"), (19, 0));
        assert_eq!(code("Dim_1=1;Dim_2=1;Dim_3=0;Dim_4=x;"), (18, 4));
        assert_eq!(code("Dim_1=1;Dim_2=1;Dim_3=1;Dim_4=1;DataRasterConfiguration=0;"), (19, 0));
    }

    #[test]
    fn ranges_of_configurations() {
        for (dims, most) in [("", 2), ("Dim_1=1;", 2), ("Dim_1=1;Dim_2=1;", 8), ("Dim_1=1;Dim_2=1;Dim_3=1;", 48)] {
            for (key, field) in [("DataRasterConfiguration", 5), ("RasterOrientation", 6)] {
                assert_eq!(code(&format!("{dims}{key}={most};")), (0, 0));
                assert_eq!(code(&format!("{dims}{key}={};", most + 1)), (18, field));
                assert_eq!(code(&format!("{dims}{key}=0;")), (18, field));
                assert_eq!(code(&format!("{dims}{key}=x;")), (18, field));
            }
        }
    }

    #[test]
    fn offsets() {
        assert_eq!(described("DataType=SignedByte;DataValueOffset=-9223372036854775808;").offset, i64::MIN);
        assert_eq!(code("DataType=SignedByte;DataValueOffset=9223372036854775808;"), (18, 7));
        assert_eq!(code("DataValueOffset=1;"), (21, 0));
        assert_eq!(code("DataValueOffset=-0;"), (0, 0));
        assert_eq!(code("DataType=FloatIEEE64;DataValueOffset=1;Dim_1=9;"), (20, 0));
    }

    #[test]
    fn extents() {
        assert_eq!(code("DataType=UnsignedShort;Dim_1=32;"), (0, 0));
        assert_eq!(code("DataType=UnsignedShort;Dim_1=33;"), (20, 0));
        assert_eq!(code("Dim_1=16;"), (0, 0));
        assert_eq!(code("Dim_1=17;"), (20, 0));
    }

    #[test]
    fn fields_of_the_general_header() {
        let general = general("1", 512, "Dim_1=2;Dim_3=4;DataType=SignedByte;DataValueOffset=3;");
        let file = [general, with_data("1.Image.Psd", "Dim_2=5;DataValueOffset=4;", &[0; 64])].concat();
        let description = describe(&file, 1).unwrap();
        assert_eq!((description.n, description.dims(), description.offset), (3, [2, 5, 4], 4));
        assert_eq!(describe(&file, 0), Err(Error { code: 16, position: 0 }));
        assert_eq!(describe(&file, 2), Err(Error { code: 16, position: 0 }));
    }
}
