//! Every fixture: its listing, byte for byte, and every call on it, by the second reader and by the library.

use edf_tests::both::{both, list};
use edf_tests::files::fixtures;
use edf_tests::generate::thorough::every_call;
use std::fs;

#[test]
fn every_listing() {
    for path in fixtures() {
        let expected = fs::read(path.with_extension("list")).unwrap();
        let listed = list(&fs::read(&path).unwrap(), expected.len()).unwrap();
        assert_eq!(String::from_utf8_lossy(&listed), String::from_utf8_lossy(&expected), "{}", path.display());
    }
}

#[test]
fn every_call_on_every_fixture() {
    for path in fixtures() {
        let file = fs::read(&path).unwrap();
        let calls = every_call(&file);
        println!("{}: {} calls", path.display(), calls.len());
        calls.iter().for_each(|call| drop(both(&file, call)));
    }
}
