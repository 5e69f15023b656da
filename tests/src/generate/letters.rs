//! Every byte in a key beside every other (02, No. 5): which keys are the same, and which are EDF_ keys.

use super::Case;
use crate::answer::Call;

const BYTES: usize = 256;
const KEY: &[u8] = b"kkk";
const EDF: &[u8] = b"EDF_";

/// How many cases there are.
pub const CASES: usize = (KEY.len() + EDF.len() + BYTES) * BYTES;

/// The case with this number: for each byte, at each place, a key that is sought; an EDF_ key; and for each two bytes two keys of one header.
pub fn case(number: usize) -> Case {
    let (kind, byte) = (number / BYTES, (number % BYTES) as u8);
    if kind < KEY.len() {
        sought(kind, byte)
    } else if kind < KEY.len() + EDF.len() {
        edf_key(kind - KEY.len(), byte)
    } else {
        twice((kind - KEY.len() - EDF.len()) as u8, byte)
    }
}

fn with(word: &[u8], place: usize, byte: u8) -> Vec<u8> {
    let mut word = word.to_vec();
    word[place] = byte;
    word
}

fn open() -> Call {
    Call::Open { rows: 256 }
}

/// A header with the byte in its key. The key is sought with every byte in its place.
fn sought(place: usize, byte: u8) -> Case {
    let finds = (0..=u8::MAX).map(|other| Call::Find { block: 0, key: with(KEY, place, other) });
    Case { file: [b"{", &with(KEY, place, byte)[..], b"=1;}\n"].concat(), calls: finds.collect() }
}

/// A header of 512 bytes that starts with EDF_DataBlockID, but for the byte. Its row shows the kind of the file.
fn edf_key(place: usize, byte: u8) -> Case {
    let mut file = [b"{", &with(EDF, place, byte)[..], b"DataBlockID=1.Image.Psd;"].concat();
    file.resize(510, b' ');
    Case { file: [&file[..], b"}\n"].concat(), calls: vec![open()] }
}

/// A header with two keys that have these bytes at the same place.
fn twice(byte: u8, other: u8) -> Case {
    let file = [b"{", &with(KEY, 1, byte)[..], b"=1;", &with(KEY, 1, other), b"=2;}\n"].concat();
    Case { file, calls: vec![open()] }
}
