//! Arrays whose lengths stand around those that the library moves at once, 16, 512, 1,024 and 65,536 bytes: every type, both byte orders stored and
//! asked for, offsets that reach the ends of a type's range, and each array as one row, as rows that stand one after another, as
//! rows the other way round, as rows that run backwards, and as planes that stand one after another, the other way round and
//! apart. And planes that the library delivers tile by tile. By the second reader and by the library.

use edf_tests::both::*;
use edf_tests::parallel;
use edf_tests::reader::element::{Form, Type, BYTE_ORDERS, TYPES};

/// Lengths in bytes.
const LENGTHS: [usize; 20] =
    [1, 15, 16, 17, 31, 130, 252, 255, 256, 257, 508, 511, 512, 513, 1_020, 1_024, 1_025, 2_049, 65_536, 65_537];

/// Dims for a number of elements, with the raster configuration.
fn shapes(elements: usize) -> Vec<(String, u32)> {
    let rows = elements.div_ceil(7);
    let (many, two) = (format!("Dim_1=7;Dim_2={rows};"), format!("Dim_1={elements};Dim_2=2;"));
    let mut shapes = vec![(format!("Dim_1={elements};"), 1), (many.clone(), 1), (many, 3)];
    shapes.extend([2, 3, 4].map(|configuration| (two.clone(), configuration)));
    shapes.extend([1, 9, 17].map(|configuration| (format!("Dim_1=7;Dim_2={rows};Dim_3=2;"), configuration)));
    shapes
}

fn file(kind: Type, order: &str, offset: i64, dims: &str, configuration: u32, data: &[u8]) -> Vec<u8> {
    let body = format!(
        "{{Size={};DataType={};ByteOrder={order};{dims}DataRasterConfiguration={configuration};DataValueOffset={offset};",
        data.len(), kind.name
    );
    let mut file = body.into_bytes();
    file.resize(510, b' ');
    file.extend(b"}\n");
    file.extend(data);
    file
}

/// All arrays of a type and a length: how many.
fn compared(kind: Type, length: usize) -> usize {
    let elements = length.div_ceil(kind.width);
    let data: Vec<u8> = (0..kind.width * (2 * elements + 14)).map(|i| (i * 89 + i / 256 + 7) as u8).collect();
    let most = if kind.form == Form::Float { 0 } else { i64::MAX };
    let mut arrays = 0;
    for order in BYTE_ORDERS {
        for (dims, configuration) in shapes(elements) {
            for offset in [0, 100.min(most), (-1_000).max(-most), most, -most] {
                let file = file(kind, order, offset, &dims, configuration, &data);
                for asked in 1..=2 {
                    read_array(&file, 0, asked, data.len()).unwrap_or_else(|e| panic!("{} {dims} {e:?}", kind.name));
                    arrays += 1;
                }
            }
        }
    }
    arrays
}

#[test]
fn arrays_of_every_length_are_delivered_alike() {
    let cases: Vec<(Type, usize)> = TYPES.into_iter().flat_map(|kind| LENGTHS.map(|length| (kind, length))).collect();
    parallel::for_each(0..cases.len(), |number| {
        let (kind, length) = cases[number];
        assert_eq!(compared(kind, length), 2 * 9 * 5 * 2);
    });
}

/// Dims of planes that go tile by tile in configurations 5 to 8: tiles have 64 elements along index 1 and 256 bytes along index 2, and
/// rows of 512 elements that stand a multiple of 1,024 bytes apart are slow, or of 2,560 that stand 4,096 and more apart.
fn tiled(width: usize) -> Vec<[usize; 3]> {
    let mut planes = vec![[512, 1024 / width, 1], [577, 1024 / width, 1], [640, 2048 / width, 2], [511, 1024 / width, 1]];
    if width == 8 {
        planes.extend([[2_560, 513, 1], [2_559, 513, 1]]);
    }
    planes
}

#[test]
fn planes_are_delivered_alike_tile_by_tile() {
    let types: Vec<Type> = ["UnsignedByte", "SignedShort", "FloatIEEE32", "Unsigned64"]
        .map(|name| TYPES.into_iter().find(|kind| kind.name == name).expect(name)).to_vec();
    let cases: Vec<(Type, [usize; 3], u32)> = types.into_iter()
        .flat_map(|kind| tiled(kind.width).into_iter().flat_map(move |dims| (5..=8).map(move |number| (kind, dims, number))))
        .collect();
    parallel::for_each(0..cases.len(), |number| {
        let (kind, [dim_1, dim_2, dim_3], configuration) = cases[number];
        let data: Vec<u8> = (0..dim_1 * dim_2 * dim_3 * kind.width).map(|i| (i * 89 + i / 251 + i / 65_521) as u8).collect();
        let dims = format!("Dim_1={dim_1};Dim_2={dim_2};{}", if dim_3 > 1 { format!("Dim_3={dim_3};") } else { String::new() });
        let offset = if kind.form == Form::Float { 0 } else { 3 * i64::from(configuration) - 20 };
        let file = file(kind, BYTE_ORDERS[number % 2], offset, &dims, configuration, &data);
        read_array(&file, 0, 1, data.len()).unwrap_or_else(|e| panic!("{} {dims} {e:?}", kind.name));
    });
    assert_eq!(cases.len(), 4 * (4 * 4 + 2));
}
