//! Concatenated files of kind 1 at the limits: 256 blocks, and 1,073,741,824 bytes.

use crate::run::{library, rows};
use edf_tests::answer::{Answer, Call};
use edf_tests::independence::{concatenated, joined, opened};
use edf_tests::both::{describe, find, read_array, read_pixel};
use edf_tests::files::plain;
use edf_tests::reader::{Pixel, Row, Span};

const LONGEST: usize = 1 << 30;

/// A file of kind 1 with so many blocks, some of them with data.
fn blocks(count: usize) -> Vec<u8> {
    let block = |number: usize| [plain(format!("Number={number};Size={};", number % 3)), vec![b'{'; number % 3]].concat();
    (0..count).flat_map(block).collect()
}

fn open(file: &[u8]) -> Answer {
    library(file, &Call::Open { rows: 256 }).expect("an answer")
}

#[test]
fn up_to_256_blocks_are_one_file() {
    for (first, second) in [(255, 1), (1, 255), (128, 128), (200, 56), (254, 1)] {
        let (one, other) = (blocks(first), blocks(second));
        assert!(matches!(concatenated(library, &one, &other), Ok(Some(_))), "{first} and {second}");
    }
}

/// 14 stands at the first byte after 256 blocks: at the seam, or at a block of the second file.
#[test]
fn more_blocks_are_refused_where_the_257th_would_start() {
    for (first, second) in [(256, 1), (200, 57), (1, 256), (129, 128), (256, 256)] {
        let (one, other) = (blocks(first), blocks(second));
        let position = one.len() + rows(&other)[256 - first].start;
        assert_eq!(open(&[one, other].concat()), Answer::Failed { code: 14, position }, "{first} and {second}");
    }
}

/// Whitespace is no block: 256 blocks with whitespace at the seam and at the ends are one file, and 14 stands behind it.
#[test]
fn whitespace_at_the_seam_of_256_blocks() {
    let spaced = |count: usize| [&b" \n"[..], &blocks(count), b"\t\x0b"].concat();
    for (first, second) in [(255, 1), (1, 255), (128, 128)] {
        assert!(matches!(concatenated(library, &spaced(first), &spaced(second)), Ok(Some(_))), "{first} and {second}");
    }
    for (first, second) in [(256, 1), (128, 129)] {
        let (one, other) = (spaced(first), spaced(second));
        let position = one.len() + rows(&other)[256 - first].start;
        assert_eq!(open(&[one, other].concat()), Answer::Failed { code: 14, position }, "{first} and {second}");
    }
}

/// A header that says the length of the data, and four pixels.
fn header(data: usize) -> Vec<u8> {
    plain(format!("DataType=UnsignedByte;Dim_1=4;Size={data};"))
}

/// Two headers at 0 and in the middle of a file of zeros, each with the data up to the next.
fn two_halves(file: &mut [u8]) {
    let (seam, length) = (LONGEST / 2, file.len());
    file[..512].copy_from_slice(&header(seam - 512));
    file[seam..seam + 512].copy_from_slice(&header(length - seam - 512));
    file[seam + 512..seam + 516].copy_from_slice(&[1, 2, 3, 4]);
}

#[test]
fn files_concatenated_may_have_1073741824_bytes_and_no_more() {
    let seam = LONGEST / 2;
    let mut memory = vec![0; LONGEST + 1];
    let file = &mut memory[..LONGEST];
    two_halves(file);
    let (one, other) = (rows(&file[..seam]), rows(&file[seam..]));
    let row = |start| Row { start, header_length: 512, data_length: seam - 512, kind: 1, sequence: 0, instance: 0, memory: 0 };
    assert_eq!(joined(&one, &other, seam), [row(0), row(seam)]);
    assert_eq!(open(file), Answer::Rows(joined(&one, &other, seam)));
    assert_eq!(read_array(file, 1, 1, 4), Ok(vec![1, 2, 3, 4]));
    assert_eq!(read_pixel(file, 1, 3, 0, 0), Ok(Pixel::Unsigned(4)));
    assert_eq!(describe(file, 1), describe(&file[seam..], 0));
    let Span { start, length } = find(&file[seam..], 0, b"Dim_1").expect("found");
    assert_eq!(find(file, 1, b"Dim_1"), Ok(Span { start: start + seam, length }));
    two_halves(&mut memory);
    assert!(opened(library, &memory[..seam]).is_some() && opened(library, &memory[seam..]).is_some());
    assert_eq!(open(&memory), Answer::Failed { code: 1, position: 0 });
}
