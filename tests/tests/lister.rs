//! The lister, the program that `rt ci` builds, or `rt run` in crates/edf_list: for each input it prints what the second reader gives.

use edf_tests::files::fixtures;
use edf_tests::generate::case;
use edf_tests::parallel;
use edf_tests::reader::printed;
use std::fs;
use std::io::{ErrorKind, Write};
use std::path::Path;
use std::process::{Command, Stdio};
use std::thread::sleep;
use std::time::Duration;

/// What the program prints for an input that comes in pieces, with a little time between them.
fn in_pieces(input: &[u8], length: usize) -> String {
    let program = Path::new(env!("CARGO_MANIFEST_DIR")).join("../crates/edf_list/out/edf_list");
    let mut command = Command::new(&program);
    let pipes = command.stdin(Stdio::piped()).stdout(Stdio::piped()).stderr(Stdio::piped());
    let mut running = pipes.spawn().unwrap_or_else(|error| panic!("{}: {error}", program.display()));
    let mut stdin = running.stdin.take().unwrap();
    for (number, piece) in input.chunks(length).enumerate() {
        sleep(Duration::from_millis(number.min(1) as u64));
        match stdin.write_all(piece) {
            // The program may end before it has read an input that is too long.
            Err(error) if error.kind() == ErrorKind::BrokenPipe => break,
            written => written.unwrap(),
        }
    }
    drop(stdin);
    let output = running.wait_with_output().unwrap();
    assert!(output.stderr.is_empty() && output.status.code().is_some(), "{output:?}");
    String::from_utf8(output.stdout).unwrap()
}

fn given(input: &[u8]) -> String {
    in_pieces(input, usize::MAX)
}

fn expected(input: &[u8]) -> String {
    String::from_utf8(printed(input)).unwrap()
}

#[test]
fn every_fixture() {
    for path in fixtures() {
        let listing = fs::read_to_string(path.with_extension("list")).unwrap();
        assert_eq!(given(&fs::read(&path).unwrap()), listing, "{}", path.display());
    }
}

/// A file of one block, of just this length.
fn file_of(length: usize) -> Vec<u8> {
    let mut file = format!("{{Size={};", length - 512).into_bytes();
    file.resize(510, b' ');
    file.extend(b"}\n");
    file.resize(length, 7);
    file
}

#[test]
fn both_sides_of_the_limit() {
    assert_eq!(given(b""), "refused 3 0\n");
    for length in [65_535, 65_536] {
        let line = format!("blocks 1\n0 0 512 {} - FloatIEEE32d HighByteFirstd 0d 1d 1d 0d\n", length - 512);
        assert_eq!(given(&file_of(length)), line);
        assert_eq!(given(&vec![b'x'; length]), "refused 3 0\n");
        assert_eq!(given(&vec![b' '; length]), format!("refused 3 {length}\n"));
    }
    for length in [65_537, 65_538, 131_072, 1 << 20] {
        assert_eq!(given(&file_of(length)), "refused 1 0\n");
        assert_eq!(given(&vec![b'x'; length]), "refused 1 0\n");
    }
}

#[test]
fn input_that_comes_in_pieces() {
    for (input, length) in [(file_of(600), 1), (file_of(65_536), 1_000), (file_of(65_536), 65_535), (file_of(65_537), 65_536)] {
        assert_eq!(in_pieces(&input, length), expected(&input));
    }
}

#[test]
fn generated_files() {
    parallel::for_each(0..2_000, |number| {
        let file = case(1, number).file;
        assert_eq!(given(&file), expected(&file), "seed 1, case {number}");
    });
}
