//! Concatenated files where one is of kind 2. The law does not speak of these; 01 says what comes.

use crate::run::{counted, library, reached, rows, seed, share, shown, Shown};
use edf_tests::answer::{Answer, Call};
use edf_tests::independence::{joined, answered_alike, Pair};
use edf_tests::files::{data, general, padded, plain};
use edf_tests::generate::pairs::two_of_kind_2;
use edf_tests::parallel;
use edf_tests::reader::Row;

const PAIRS: usize = 1_000;

fn open(files: [&[u8]; 2]) -> Answer {
    library(&files.concat(), &Call::Open { rows: 256 }).expect("an answer")
}

fn refused(files: [&[u8]; 2], code: u8, position: usize) {
    assert_eq!(open(files), Answer::Failed { code, position });
}

fn accepted(files: [&[u8]; 2], rows: Vec<Row>) {
    assert_eq!(open(files), Answer::Rows(rows));
}

/// A block of kind 2 with a byte of data.
fn with_data(id: &str) -> Vec<u8> {
    [data(id, "EDF_BinarySize=1;"), vec![0]].concat()
}

/// A file with a general header that sets the boundary; its two headers are the least multiples of it.
fn of_boundary(boundary: usize) -> Vec<u8> {
    let general = format!("EDF_DataFormatVersion=2.42;EDF_DataBlocks=1;EDF_BlockBoundary={boundary};");
    let header = |body: &str| padded(body, (body.len() + 3).next_multiple_of(boundary));
    let file = [header(&general), header("EDF_DataBlockID=1.Image.Psd;")].concat();
    assert_eq!(rows(&file).len(), 2);
    file
}

/// "Every other header starts with EDF_DataBlockID": 9 at the seam.
#[test]
fn kind_2_and_then_kind_1_is_refused() {
    for one in [with_data("1.Image.Psd"), [general("1", ""), with_data("1.Image.Psd")].concat()] {
        for other in [plain(""), plain("Title=t;"), plain("Title=t;EDF_DataBlockID=2.Image.Psd;"), plain("").repeat(2)] {
            assert!(!rows(&one).is_empty() && !rows(&other).is_empty());
            refused([&one, &other], 9, one.len());
        }
    }
}

/// "In kind 1 all EDF_ keys are ignored": headers are cut by Size, so that a file of kind 2 without data and Size is taken for blocks of kind 1.
#[test]
fn kind_1_and_then_kind_2_is_of_kind_1() {
    let one = plain("Title=t;");
    let of_length = |start, header_length| Row { start, header_length, data_length: 0, kind: 1, sequence: 0, instance: 0, memory: 0 };
    let row = |start| of_length(start, 512);
    for other in [data("5.Image.Error.3", ""), general("1", ""), data("1.Image.Psd", "EDF_HeaderSize=512;")] {
        accepted([&one, &other], vec![row(0), row(512)]);
    }
    let other = [general("1", ""), data("1.Image.Psd", "")].concat();
    assert_eq!(rows(&other)[1].instance, 1);
    accepted([&one, &other], vec![row(0), row(512), row(1_024)]);
    assert_eq!(rows(&with_data("1.Image.Psd"))[0].data_length, 1);
    refused([&one, &with_data("1.Image.Psd")], 3, 1_024);
    refused([&one, &data("1.Image.Psd", "Size=junk;")], 9, 512);
    accepted([&one, &of_boundary(64)], vec![row(0), of_length(512, 128), of_length(640, 64)]);
}

/// Whitespace at the seam: in kind 1 it is in no row, whatever comes next. In kind 2 only a start pattern may stand there.
#[test]
fn whitespace_at_a_seam() {
    let row = |start, data_length| Row { start, header_length: 512, data_length, kind: 1, sequence: 0, instance: 0, memory: 0 };
    let (one, two) = (plain("Title=t;"), data("1.Image.Psd", ""));
    for gap in [&b" "[..], b"\t", b"\n", b"\r\n", b"\n\n", b"\r", b"\x0b\x0c"] {
        let seam = 512 + gap.len();
        accepted([&one, &[gap, &two].concat()], vec![row(0, 0), row(seam, 0)]);
        accepted([&[&one, gap].concat(), &[&two, gap].concat()], vec![row(0, 0), row(seam, 0)]);
        accepted([&one, &[&data("1.Image.Psd", "Size=1;")[..], b" ", gap].concat()], vec![row(0, 0), row(512, 1)]);
        refused([&[&two, gap].concat(), &one], if STARTS.contains(&gap) { 9 } else { 3 }, 512);
        refused([&[&two, gap].concat(), b""], 3, 512);
        refused([&[&two, gap].concat(), &[gap, &data("2.Image.Psd", "")].concat()], 3, 512);
    }
}

/// What may stand before the brace of a header of kind 2.
const STARTS: [&[u8]; 2] = [b"\n", b"\r\n"];

/// A general header is a first header, and it counts the blocks beside it.
#[test]
fn general_headers_keep_files_from_being_joined() {
    let [one, other] = ["1.Image.Psd", "2.Image.Psd"].map(with_data);
    let counted = |count: &str, block: &[u8]| [general(count, ""), block.to_vec()].concat();
    for first in [one.clone(), counted("1", &one)] {
        refused([&first, &counted("1", &other)], 9, first.len());
    }
    refused([&counted("1", &one), &other], 15, 0);
    refused([&counted("Undetermined", &one), &other], 15, 0);
    refused([&counted("1", &one), &one], 13, 512 + one.len());
    refused([&of_boundary(1_024), &other], 11, 2_048);
}

/// Without a general header, files of kind 2 with other identities are one file, answered as before; 13 where an identity comes again.
fn of_pair(number: usize) -> Shown {
    let [one, other] = two_of_kind_2(seed(), number);
    let (first, second) = (rows(&one), rows(&other));
    let identity = |row: &Row| (row.sequence, row.instance, row.memory);
    if let Some(again) = second.iter().find(|row| first.iter().any(|before| identity(before) == identity(row))) {
        refused([&one, &other], 13, one.len() + again.start);
        return Shown::from(["an identity twice".to_string()]);
    }
    let all = joined(&first, &second, one.len());
    accepted([&one, &other], all);
    let file = [&one[..], &other].concat();
    let block = number % second.len();
    let pair = Pair { one: other, other: file, block, other_block: first.len() + block };
    match answered_alike(library, &pair) {
        Ok(Some(answered)) => shown(&answered),
        Ok(None) => panic!("seed {}, pair {number}: other rows", seed()),
        Err(breach) => panic!("seed {}, pair {number}: {breach}", seed()),
    }
}

/// How many of the pairs are to show each of these at least.
const WANTED: [(&str, usize); 2] = [("kept", 600), ("an identity twice", 80)];

#[test]
fn files_of_kind_2_are_one_file_where_no_identity_comes_twice() {
    let counts = counted(parallel::for_each(0..share(PAIRS), of_pair));
    reached("joined, kind 2", PAIRS, &counts, &WANTED);
}
