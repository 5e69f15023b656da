//! The bytes of a file. It is read, not mapped: another program may write it meanwhile, and bytes that change under the library are
//! not what its proofs are about.

use crate::failure::Failure;
use crate::progress::Progress;
use std::ffi::OsStr;
use std::fs::File;
use std::io::{self, Read};

/// What is read at a time.
const CHUNK: usize = 16 << 20;

/// The bytes of a file, or of standard input for `-`. Of a file over the library's limit one byte more than the limit is read: the
/// library then refuses it.
pub fn read(path: &OsStr) -> Result<Vec<u8>, Failure> {
    let bytes = if path == "-" {
        collect(io::stdin().lock(), 0, path)
    } else {
        File::open(path).and_then(|file| {
            let length = file.metadata()?.len();
            collect(file, usize::try_from(length).unwrap_or(usize::MAX), path)
        })
    };
    bytes.map_err(|error| Failure::unreadable(path, &error))
}

fn collect(stream: impl Read, expected: usize, path: &OsStr) -> io::Result<Vec<u8>> {
    let most = edf::MOST_BYTES + 1;
    let expected = expected.min(most);
    let mut progress = Progress::new();
    let what = format!("reading {}", path.to_string_lossy());
    let mut stream = stream.take(most as u64);
    let mut bytes = Vec::new();
    bytes.try_reserve_exact(expected + 1)?;
    while stream.by_ref().take(CHUNK as u64).read_to_end(&mut bytes)? > 0 {
        progress.tell(&what, bytes.len(), expected);
    }
    Ok(bytes)
}
