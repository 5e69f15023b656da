//! Descriptions, delivered arrays and pixels: "The array".

use edf_tests::answer::Call;
use edf_tests::files::{array, data, general, plain};
use edf_tests::told::expect;

/// A block with 512 bytes of data: these numbers, then spaces.
fn block(fields: &str, stored: &str) -> Vec<u8> {
    let mut bytes: Vec<u8> = stored.split_whitespace().map(|byte| byte.parse().unwrap()).collect();
    bytes.resize(512, b' ');
    array(fields, &bytes)
}

/// Fields, and the description: type, order, compression, N, Dims, configuration, orientation, offset, and the origins of the seven fields.
const DESCRIBED: [(&str, &str); 43] = [
    ("DataType=UnsignedByte;Dim_1=3;Dim_2=2;", "1 1 1 2 3 2 1 1 1 0 oddoddd"),
    ("DataType=FloatIEEE64;Dim_1=64;", "10 1 1 1 64 1 1 1 1 0 oddoddd"),
    ("datatype=Signed64;Dim_1=64;", "9 1 1 1 64 1 1 1 1 0 oddoddd"),
    ("DataType=unsignedbyte;Dim_1=3;", "refused 17 1"),
    ("DataType=UnsignedLong;Dim_1=3;", "refused 17 1"),
    ("DataType=Unsigned16;Dim_1=3;", "refused 17 1"),
    ("DataType=;Dim_1=3;", "refused 17 1"),
    ("ByteOrder=LowByteFirst;Dim_1=3;", "7 2 1 1 3 1 1 1 1 0 dododdd"),
    ("ByteOrder=LowByte;Dim_1=3;", "refused 17 2"),
    ("Compression=None;Dim_1=3;", "7 1 1 1 3 1 1 1 1 0 ddooddd"),
    ("Compression=NoSpecificValue;Dim_1=3;", "refused 17 3"),
    ("DataType=x;ByteOrder=x;Compression=x;", "refused 17 1"),
    ("ByteOrder=x;Compression=x;Dim_1=0;", "refused 17 2"),
    ("", "7 1 1 1 0 1 1 1 1 0 ddddddd"),
    ("Dim_2=2;Dim_3=x;", "7 1 1 1 0 1 1 1 1 0 ddddddd"),
    ("Dim_1=3;Dim_3=x;", "7 1 1 1 3 1 1 1 1 0 dddoddd"),
    ("Dim_1=3;Dim_2=2;Dim_3=1;", "7 1 1 3 3 2 1 1 1 0 dddoddd"),
    ("Dim_1=3;Dim_2=2;Dim_3=1;Dim_4=x;", "refused 19 0"),
    ("Dim_1=3;Dim_2=2;Dim_4=1;", "7 1 1 2 3 2 1 1 1 0 dddoddd"),
    ("Dim_1=0;", "refused 18 4"),
    ("Dim_1=-1;", "refused 18 4"),
    ("Dim_1=3;Dim_2=1048577;", "refused 18 4"),
    ("Dim_1=1;Dim_2=0;Dim_3=1;Dim_4=1;", "refused 18 4"),
    ("Dim_1=2;DataRasterConfiguration=2;", "7 1 1 1 2 1 1 2 1 0 dddoodd"),
    ("Dim_1=2;DataRasterConfiguration=3;", "refused 18 5"),
    ("Dim_1=2;Dim_2=2;DataRasterConfiguration=8;", "7 1 1 2 2 2 1 8 1 0 dddoodd"),
    ("Dim_1=2;Dim_2=2;DataRasterConfiguration=9;", "refused 18 5"),
    ("Dim_1=2;Dim_2=2;Dim_3=2;DataRasterConfiguration=48;", "7 1 1 3 2 2 2 48 1 0 dddoodd"),
    ("Dim_1=2;Dim_2=2;Dim_3=2;DataRasterConfiguration=49;", "refused 18 5"),
    ("Dim_1=2;DataRasterConfiguration=0;", "refused 18 5"),
    ("Dim_1=2;RasterOrientation=2;", "7 1 1 1 2 1 1 1 2 0 dddodod"),
    ("Dim_1=2;RasterOrientation=3;", "refused 18 6"),
    ("Dim_1=2;Dim_2=2;RasterOrientation=8;", "7 1 1 2 2 2 1 1 8 0 dddodod"),
    ("DataType=SignedShort;Dim_1=2;DataValueOffset=-9223372036854775808;", "4 1 1 1 2 1 1 1 1 -9223372036854775808 oddoddo"),
    ("DataType=SignedShort;Dim_1=2;DataValueOffset=9223372036854775808;", "refused 18 7"),
    ("Dim_1=2;DataValueOffset=0;", "7 1 1 1 2 1 1 1 1 0 dddoddo"),
    ("Dim_1=2;DataValueOffset=1;", "refused 21 0"),
    ("Dim_1=128;", "7 1 1 1 128 1 1 1 1 0 dddoddd"),
    ("Dim_1=129;", "refused 20 0"),
    ("Dim_1=129;DataValueOffset=1;", "refused 20 0"),
    ("Dim_1=1048576;Dim_2=1048576;Dim_3=1048576;", "refused 20 0"),
    ("DataType=UnsignedByte;Dim_1=512;", "1 1 1 1 512 1 1 1 1 0 oddoddd"),
    ("DataType=UnsignedByte;Dim_1=513;", "refused 20 0"),
];

#[test]
fn descriptions() {
    for (fields, expected) in DESCRIBED {
        expect(&block(fields, ""), Call::Describe { block: 0 }, expected);
    }
}

/// Fields of the general header and of the data block, the block described, and its description.
const SHARED: [(&str, &str, usize, &str); 19] = [
    ("DataType=UnsignedByte;Dim_1=3;", "Dim_2=2;", 1, "1 1 1 2 3 2 1 1 1 0 gddgddd"),
    ("DataType=UnsignedByte;Dim_2=2;", "Dim_1=3;", 1, "1 1 1 2 3 2 1 1 1 0 gddoddd"),
    ("Dim_2=2;", "Dim_3=2;", 1, "7 1 1 1 0 1 1 1 1 0 ddddddd"),
    ("DataType=x;", "DataType=UnsignedByte;Dim_1=3;", 1, "1 1 1 1 3 1 1 1 1 0 oddoddd"),
    ("DataType=FloatIEEE32;", "", 1, "7 1 1 1 0 1 1 1 1 0 gdddddd"),
    ("", "DataType=FloatIEEE32;", 1, "7 1 1 1 0 1 1 1 1 0 odddddd"),
    ("ByteOrder=LowByteFirst;", "", 1, "7 2 1 1 0 1 1 1 1 0 dgddddd"),
    ("ByteOrder=LowByteFirst;", "ByteOrder=HighByteFirst;", 1, "7 1 1 1 0 1 1 1 1 0 doddddd"),
    ("Compression=None;", "", 1, "7 1 1 1 0 1 1 1 1 0 ddgdddd"),
    ("Compression=None;", "Compression=None;", 1, "7 1 1 1 0 1 1 1 1 0 ddodddd"),
    ("DataRasterConfiguration=2;", "", 1, "7 1 1 1 0 1 1 2 1 0 ddddgdd"),
    ("RasterOrientation=2;", "DataRasterConfiguration=1;", 1, "7 1 1 1 0 1 1 1 2 0 ddddogd"),
    ("DataValueOffset=0;", "RasterOrientation=1;", 1, "7 1 1 1 0 1 1 1 1 0 dddddog"),
    ("DataValueOffset=1;", "DataValueOffset=0;", 1, "7 1 1 1 0 1 1 1 1 0 ddddddo"),
    (" D I M _ 1 =3;", "dataTYPE\r\n=UnsignedByte;", 1, "1 1 1 1 3 1 1 1 1 0 oddgddd"),
    ("EDF_Dim_1=3;", "EDF_DataType=UnsignedByte;", 1, "7 1 1 1 0 1 1 1 1 0 ddddddd"),
    ("DataType=UnsignedByte;", "DataType=;Dim_1=3;", 1, "refused 17 1"),
    ("DataType=UnsignedByte;Dim_1=3;", "", 0, "refused 16 0"),
    ("DataType=UnsignedByte;Dim_1=3;", "", 2, "refused 16 0"),
];

#[test]
fn fields_of_the_general_header() {
    for (shared, own, number, expected) in SHARED {
        expect(&[general("1", shared), block(own, "")].concat(), Call::Describe { block: number }, expected);
    }
}

/// A first block that is no general header, of either kind: the second block has nothing from it.
#[test]
fn fields_of_another_block() {
    let (fields, described) = ("DataType=SignedByte;Dim_1=3;", "7 1 1 1 0 1 1 1 1 0 ddddddd");
    let plain_blocks = [plain(format!("Size=3;{fields}")), vec![0; 3], plain("")].concat();
    let data_blocks = [array(&format!("{fields}EDF_DataFormatVersion=2.42;"), &[0; 3]), data("2.Image.Psd", "")].concat();
    for file in [plain_blocks, data_blocks] {
        expect(&file, Call::Describe { block: 0 }, "2 1 1 1 3 1 1 1 1 0 oddoddd");
        expect(&file, Call::Describe { block: 1 }, described);
    }
}

/// Fields, stored bytes, the order asked for, and the array in a buffer of 12 bytes.
const DELIVERED: [(&str, &str, u8, &str); 27] = [
    ("DataType=UnsignedByte;Dim_1=3;Dim_2=2;DataRasterConfiguration=2;", "3 2 1 6 5 4", 1, "1 2 3 4 5 6"),
    ("DataType=UnsignedByte;Dim_1=3;Dim_2=2;DataRasterConfiguration=5;", "1 4 2 5 3 6", 1, "1 2 3 4 5 6"),
    ("DataType=UnsignedByte;Dim_1=3;Dim_2=2;DataRasterConfiguration=6;", "3 6 2 5 1 4", 1, "1 2 3 4 5 6"),
    ("DataType=UnsignedByte;Dim_1=3;Dim_2=2;DataRasterConfiguration=7;", "4 1 5 2 6 3", 1, "1 2 3 4 5 6"),
    ("DataType=UnsignedByte;Dim_1=3;Dim_2=2;RasterOrientation=6;", "1 2 3 4 5 6", 1, "1 2 3 4 5 6"),
    ("DataType=UnsignedShort;Dim_1=2;", "1 2 3 4", 1, "1 2 3 4"),
    ("DataType=UnsignedShort;Dim_1=2;", "1 2 3 4", 2, "2 1 4 3"),
    ("DataType=UnsignedInteger;ByteOrder=LowByteFirst;Dim_1=2;", "1 2 3 4 5 6 7 8", 1, "4 3 2 1 8 7 6 5"),
    ("DataType=Signed64;Dim_1=1;", "1 2 3 4 5 6 7 8", 2, "8 7 6 5 4 3 2 1"),
    ("DataType=FloatIEEE32;Dim_1=1;", "127 192 18 52", 1, "127 192 18 52"),
    ("DataType=UnsignedByte;Dim_1=12;", "1 2 3 4 5 6 7 8 9 10 11 12", 1, "1 2 3 4 5 6 7 8 9 10 11 12"),
    ("DataType=UnsignedShort;Dim_1=1;DataValueOffset=10;", "255 250", 1, "255 255"),
    ("DataType=UnsignedShort;ByteOrder=LowByteFirst;Dim_1=1;DataValueOffset=10;", "250 255", 1, "255 255"),
    ("DataType=UnsignedShort;ByteOrder=LowByteFirst;Dim_1=1;DataValueOffset=10;", "255 0", 2, "9 1"),
    ("DataType=UnsignedByte;Dim_1=1;DataValueOffset=-5;", "3", 1, "0"),
    ("DataType=UnsignedByte;Dim_1=1;DataValueOffset=-5;", "6", 1, "1"),
    ("DataType=SignedByte;Dim_1=3;DataValueOffset=10;", "117 118 246", 1, "127 127 0"),
    ("DataType=SignedShort;Dim_1=2;DataValueOffset=-10;", "128 9 128 10", 1, "128 0 128 0"),
    ("DataType=Unsigned64;Dim_1=1;DataValueOffset=-9223372036854775808;", "128 0 0 0 0 0 0 1", 1, "0 0 0 0 0 0 0 1"),
    ("DataType=Signed64;Dim_1=1;DataValueOffset=9223372036854775807;", "0 0 0 0 0 0 0 1", 1, "127 255 255 255 255 255 255 255"),
    ("DataType=UnsignedByte;Dim_1=13;", "1", 1, "refused 22 0"),
    ("DataType=UnsignedByte;Dim_1=13;", "1", 0, "refused 24 0"),
    ("DataType=UnsignedByte;Dim_1=12;", "1", 3, "refused 24 0"),
    ("DataType=UnsignedByte;Dim_1=513;", "1", 3, "refused 20 0"),
    ("DataType=x;", "1", 3, "refused 17 1"),
    ("", "1", 1, ""),
    ("", "1", 3, "refused 24 0"),
];

#[test]
fn delivered_arrays() {
    for (fields, stored, order, expected) in DELIVERED {
        expect(&block(fields, stored), Call::ReadArray { block: 0, order, room: 12 }, expected);
    }
}

/// Fields, stored bytes, indices, and the pixel.
const PIXELS: [(&str, &str, [usize; 3], &str); 21] = [
    ("DataType=UnsignedByte;Dim_1=3;Dim_2=2;DataRasterConfiguration=6;", "3 6 2 5 1 4", [0, 0, 0], "unsigned 1"),
    ("DataType=UnsignedByte;Dim_1=3;Dim_2=2;DataRasterConfiguration=6;", "3 6 2 5 1 4", [2, 0, 0], "unsigned 3"),
    ("DataType=UnsignedByte;Dim_1=3;Dim_2=2;DataRasterConfiguration=6;", "3 6 2 5 1 4", [0, 1, 0], "unsigned 4"),
    ("DataType=UnsignedShort;Dim_1=1;DataValueOffset=10;", "255 250", [0, 0, 0], "unsigned 65535"),
    ("DataType=SignedByte;Dim_1=1;", "128", [0, 0, 0], "signed -128"),
    ("DataType=SignedInteger;ByteOrder=LowByteFirst;Dim_1=1;", "254 255 255 255", [0, 0, 0], "signed -2"),
    ("DataType=Unsigned64;Dim_1=1;", "255 255 255 255 255 255 255 255", [0, 0, 0], "unsigned 18446744073709551615"),
    ("DataType=Signed64;Dim_1=1;", "128 0 0 0 0 0 0 0", [0, 0, 0], "signed -9223372036854775808"),
    ("Dim_1=1;", "63 192 0 0", [0, 0, 0], "float32 1.5"),
    ("ByteOrder=LowByteFirst;Dim_1=1;", "0 0 128 190", [0, 0, 0], "float32 -0.25"),
    ("Dim_1=1;", "127 192 18 52", [0, 0, 0], "float32 NaN"),
    ("DataType=FloatIEEE64;Dim_1=1;", "63 248 0 0 0 0 0 0", [0, 0, 0], "float64 1.5"),
    ("DataType=FloatIEEE64;Dim_1=1;", "191 208 0 0 0 0 0 0", [0, 0, 0], "float64 -0.25"),
    ("DataType=FloatIEEE64;Dim_1=1;", "255 240 0 0 0 0 0 1", [0, 0, 0], "float64 NaN"),
    ("DataType=UnsignedByte;Dim_1=3;", "1 2 3", [2, 0, 0], "unsigned 3"),
    ("DataType=UnsignedByte;Dim_1=3;", "1 2 3", [3, 0, 0], "refused 23 0"),
    ("DataType=UnsignedByte;Dim_1=3;", "1 2 3", [0, 1, 0], "refused 23 0"),
    ("DataType=UnsignedByte;Dim_1=3;", "1 2 3", [0, 0, 1], "refused 23 0"),
    ("", "1", [0, 0, 0], "refused 23 0"),
    ("DataType=x;", "1", [9, 9, 9], "refused 17 1"),
    ("DataType=UnsignedByte;Dim_1=513;", "1", [600, 0, 0], "refused 20 0"),
];

#[test]
fn pixels() {
    for (fields, stored, [i1, i2, i3], expected) in PIXELS {
        expect(&block(fields, stored), Call::ReadPixel { block: 0, i1, i2, i3 }, expected);
    }
}
