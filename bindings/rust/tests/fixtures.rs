//! The wrapper on the fixtures of tests/fixtures and of its folder requests, whose listings stand beside them.

use edf::{BlockKind, ByteOrder, Code, File, Identity, Instance, Pixel};
use std::path::{Path, PathBuf};

fn folder() -> PathBuf {
    Path::new(env!("CARGO_MANIFEST_DIR")).join("../../tests/fixtures")
}

fn fixture(name: &str) -> Vec<u8> {
    std::fs::read(folder().join(name)).expect(name)
}

/// The names of a folder, as `fixture` takes them.
fn names(inner: &str) -> Vec<String> {
    let entries = std::fs::read_dir(folder().join(inner)).expect(inner);
    entries.map(|entry| inner.to_string() + &entry.unwrap().file_name().into_string().unwrap()).collect()
}

fn all_fixtures() -> Vec<(String, Vec<u8>)> {
    let names = ["", "requests/"].into_iter().flat_map(names).filter(|name| name.ends_with(".edf"));
    let files: Vec<_> = names.map(|name| (name.clone(), fixture(&name))).collect();
    assert!(files.len() > 120);
    files
}

#[test]
fn listings() {
    for (name, bytes) in all_fixtures() {
        let expected = String::from_utf8(fixture(&name.replace(".edf", ".list"))).unwrap();
        assert_eq!(edf::list(&bytes), expected, "{name}");
    }
}

/// The letters of a listing are the origins of the descriptions. The listing is made from the whole file, a description from a block's
/// own bytes where the file has no general block.
#[test]
fn letters_are_the_origins() {
    let mut compared = 0;
    for (name, bytes) in all_fixtures() {
        let Ok(file) = File::open(&bytes) else { continue };
        for (block, line) in file.blocks().zip(edf::list(&bytes).lines().skip(1)) {
            let Ok(array) = block.array() else { continue };
            let o = array.description().origins;
            let origins = [o.data_type, o.byte_order, o.dims, o.configuration, o.orientation, o.offset];
            let letters: Vec<char> = line.split(' ').skip(5).filter_map(|field| field.chars().last()).collect();
            assert_eq!(letters, origins.map(edf::Origin::letter), "{name} {line}");
            compared += 1;
        }
    }
    assert!(compared > 30, "{compared}");
}

/// The list of keywords agrees with the library's own lookup: every key is found, with the same text.
#[test]
fn keywords_agree_with_lookup() {
    let mut compared = 0;
    for (name, bytes) in all_fixtures() {
        let Ok(file) = File::open(&bytes) else { continue };
        for block in file.blocks() {
            for keyword in block.keywords() {
                assert_eq!(block.text(keyword.key()).as_deref(), keyword.text().as_ref().map(|text| *text), "{name} {}", keyword.key());
                compared += 1;
            }
        }
    }
    assert!(compared > 100);
}

/// An array that is a part of the file is the array that is read.
#[test]
fn arrays_that_are_parts_of_the_file() {
    let (mut parts, mut others) = (0, 0);
    for (name, bytes) in all_fixtures() {
        let Ok(file) = File::open(&bytes) else { continue };
        for array in file.blocks().filter_map(|block| block.array().ok()) {
            for order in [ByteOrder::HighByteFirst, ByteOrder::LowByteFirst] {
                match array.bytes(order).expect(&name) {
                    Some(part) => {
                        assert_eq!(part, array.read(order).unwrap(), "{name}");
                        let (file, part) = (bytes.as_ptr_range(), part.as_ptr_range());
                        assert!(file.start <= part.start && part.end <= file.end, "{name}");
                        parts += 1;
                    }
                    None => others += 1,
                }
            }
        }
    }
    assert!(parts > 20 && others > 20, "{parts} {others}");
}

/// A block of a file without a general block answers as a file of its own, so that its calls need not judge the others.
#[test]
fn a_block_that_alone_is_another() {
    let block = |statements: &str| format!("{{ {statements:<507} }}\n1234").into_bytes();
    let first = block("Size = 4 ; DataType = UnsignedByte ; Dim_1 = 4 ;");
    for keys in ["EDF_BinarySize = 4 ;", "EDF_DataBlockID = 1.Image.Psd ; EDF_BinarySize = 4 ;", "EDF_DataBlockID = 1.Image.Psd ;"] {
        let second = block(&format!("{keys}Size = 4 ; DataType = UnsignedShort ; Dim_1 = 2 ;"));
        let bytes = [&first[..], &second, &first].concat();
        let file = File::open(&bytes).unwrap();
        let pixel = |number: usize| file.block(number).unwrap().array().unwrap().pixel([1, 0, 0]);
        assert_eq!((pixel(0), pixel(1), pixel(2)), (Ok(Pixel::Unsigned(0x32)), Ok(Pixel::Unsigned(0x3334)), Ok(Pixel::Unsigned(0x32))));
        let span = file.block(2).unwrap().find("dim_1").unwrap();
        assert_eq!(&bytes[span.offset..][..span.length], b"4");
        assert!(span.offset > 2 * 516);
        assert_eq!(file.block(1).unwrap().value("size").unwrap(), b"4");
    }
}

#[test]
fn pixels_are_the_array() {
    let mut compared = 0;
    for (name, bytes) in all_fixtures() {
        let Ok(file) = File::open(&bytes) else { continue };
        for array in file.blocks().filter_map(|block| block.array().ok()) {
            let (dims, width) = (array.description().dims(), array.description().data_type.width());
            let pixels = array.read(ByteOrder::HighByteFirst).unwrap();
            let along = |n: usize| *dims.get(n).unwrap_or(&1);
            for (number, element) in pixels.chunks_exact(width).enumerate().take(1000) {
                let index = [number % along(0), number / along(0) % along(1), number / along(0) / along(1)];
                let expected = element.iter().fold(0u64, |sum, &byte| sum << 8 | u64::from(byte));
                let shift = 64 - 8 * width as u32;
                match array.pixel(index).unwrap() {
                    Pixel::Unsigned(value) => assert_eq!(value, expected, "{name} {index:?}"),
                    Pixel::Signed(value) => assert_eq!(value, (expected << shift) as i64 >> shift, "{name} {index:?}"),
                    Pixel::Float32(value) => assert_eq!(u64::from(value.to_bits()), expected, "{name} {index:?}"),
                    Pixel::Float64(value) => assert_eq!(value.to_bits(), expected, "{name} {index:?}"),
                }
                compared += 1;
            }
        }
    }
    assert!(compared > 1000);
}

#[test]
fn parts() {
    let bytes = fixture("raster_7.edf");
    let file = File::open(&bytes).unwrap();
    let part = |offset, length| file.part(edf::Span { offset, length });
    assert_eq!(file.part(file.block(0).unwrap().find("DataType").unwrap()), b"UnsignedShort");
    assert_eq!(part(0, bytes.len()), bytes);
    assert_eq!((part(1, bytes.len()), part(bytes.len(), 0), part(usize::MAX, 2)), (&[][..], &[][..], &[][..]));
}

#[test]
fn raster_7_is_undone() {
    let bytes = fixture("raster_7.edf");
    let array = File::open(&bytes).unwrap().block(0).unwrap().array().unwrap();
    assert_eq!(array.description().configuration, 7);
    assert_eq!(array.read(ByteOrder::HighByteFirst).unwrap(), [0, 1, 0, 2, 0, 3, 0, 4, 0, 5, 0, 6]);
    let mut out = [9; 14];
    assert_eq!(array.read_into(ByteOrder::LowByteFirst, &mut out), Ok(12));
    assert_eq!(out, [1, 0, 2, 0, 3, 0, 4, 0, 5, 0, 6, 0, 9, 9]);
    assert_eq!(array.read_into(ByteOrder::LowByteFirst, &mut out[..11]).unwrap_err().code(), Code::BufferTooSmall);
    assert_eq!(array.pixel([3, 0, 0]).unwrap_err().code(), Code::IndexOutside);
}

#[test]
fn general_block() {
    let bytes = fixture("general_defaults.edf");
    let file = File::open(&bytes).unwrap();
    let kinds: Vec<_> = file.blocks().map(|block| (block.kind(), block.identity())).collect();
    let identity = |sequence| Some(Identity { sequence, instance: Instance::Psd, memory: 1 });
    assert_eq!(kinds, [(BlockKind::General, None), (BlockKind::Data, identity(1)), (BlockKind::Data, identity(2))]);
    assert_eq!(file.block(0).unwrap().array().unwrap_err().code(), Code::NotFound);
    assert_eq!(file.block(3).unwrap_err().code(), Code::NotFound);
    // DataType stands in the general header alone.
    assert!(file.block(1).unwrap().keywords().iter().all(|keyword| keyword.key() != "DataType"));
    assert_eq!(file.block(1).unwrap().value("datatype").unwrap(), b"UnsignedShort");
}

#[test]
fn errors_have_words() {
    let bytes = fixture("nul_in_header.edf");
    let error = File::open(&bytes).unwrap_err();
    assert_eq!((error.code(), error.position()), (Code::BadHeaderByte, 152));
    assert_eq!(error.to_string(), "error 4 at 152: a byte that can't stand in a header: 0, above 127, or `{`");
    let bytes = fixture("order_unknown.edf");
    let error = File::open(&bytes).unwrap().block(0).unwrap().array().unwrap_err();
    assert_eq!((error.number(), error.field()), (17, Some("ByteOrder")));
    assert_eq!(error.to_string(), "error 17 at 2: unknown word in ByteOrder");
    assert_eq!(Code::ALL.map(Code::number).to_vec(), (1..=25).chain([27]).collect::<Vec<u8>>());
    assert!(Code::ALL.iter().all(|code| code.words().len() > 5 && code.words() != "unknown code"));
}
