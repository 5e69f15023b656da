//! Files that the tests are run on.

use std::fs;
use std::path::{Path, PathBuf};

/// The fixtures: those of the format, and those of the change requests. The listing of `NAME.edf` stands beside it in `NAME.list`.
pub fn fixtures() -> Vec<PathBuf> {
    let folder = Path::new(env!("CARGO_MANIFEST_DIR")).join("fixtures");
    let (format, requests) = (edf_files(&folder), edf_files(&folder.join("requests")));
    assert!(format.len() >= 41 && requests.len() >= 92, "{} and {} fixtures", format.len(), requests.len());
    [format, requests].concat()
}

/// The files `.edf` of a folder, in order.
fn edf_files(folder: &Path) -> Vec<PathBuf> {
    let entries = fs::read_dir(folder).unwrap_or_else(|error| panic!("{}: {error}", folder.display()));
    let mut files: Vec<PathBuf> = entries.map(|entry| entry.expect("an entry").path()).collect();
    files.retain(|path| path.extension().is_some_and(|extension| extension == "edf"));
    files.sort();
    files
}

/// A header of this length, filled with spaces.
pub fn padded(body: impl AsRef<[u8]>, length: usize) -> Vec<u8> {
    let mut header = [b"{", body.as_ref()].concat();
    header.resize(length - 2, b' ');
    header.extend(b"}\n");
    header
}

/// A header of 512 bytes.
pub fn plain(body: impl AsRef<[u8]>) -> Vec<u8> {
    padded(body, 512)
}

/// A header of kind 2.
pub fn data(id: &str, body: &str) -> Vec<u8> {
    plain(format!("EDF_DataBlockID={id};{body}"))
}

/// A block of kind 2 with these fields and this data.
pub fn array(fields: &str, bytes: &[u8]) -> Vec<u8> {
    [data("1.Image.Psd", &format!("EDF_BinarySize={};{fields}", bytes.len())), bytes.to_vec()].concat()
}

/// A general header.
pub fn general(count: &str, fields: &str) -> Vec<u8> {
    plain(format!("EDF_DataFormatVersion=2.42;EDF_DataBlocks={count};{fields}"))
}
