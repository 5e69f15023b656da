//! The library for C has no list of letters, neither among its constants nor in its code (02, No. 5): memory of the board that asked is short.

use std::fs;

/// Four letters one after another, as entries of so many bytes: the least part of a list that a compiler moves at once.
fn four_letters(first: u8, width: usize) -> Vec<u8> {
    let entry = |letter: u8| [vec![letter], vec![0; width - 1]].concat();
    (first..first + 4).flat_map(entry).collect()
}

/// Where the bytes have four letters of the alphabet in a row.
fn letters_in(bytes: &[u8]) -> Option<usize> {
    let parts: Vec<Vec<u8>> = [1, 2, 4, 8].iter().flat_map(|width| (b'a'..=b'w').map(|first| four_letters(first, *width))).collect();
    (0..bytes.len()).find(|place| parts.iter().any(|part| bytes[*place..].starts_with(part)))
}

fn archive() -> Vec<u8> {
    fs::read(format!("{}/../crates/edf_c/out/libedf_c.a", env!("CARGO_MANIFEST_DIR"))).unwrap()
}

#[test]
fn the_library_has_no_list_of_letters() {
    assert_eq!(letters_in(&archive()), None);
}

/// The list of 128 entries, of any width and at any place, and the least part of it.
#[test]
fn a_list_of_letters_would_be_found() {
    let list: Vec<u8> = (0..128u8).map(|byte| byte.to_ascii_lowercase()).collect();
    let archive = archive();
    for width in [1, 2, 4, 8] {
        let entries: Vec<u8> = list.iter().flat_map(|entry| [vec![*entry], vec![0; width - 1]].concat()).collect();
        for place in [0, 1_003, archive.len()] {
            let with_list = [&archive[..place], &entries, &archive[place..]].concat();
            assert_eq!(letters_in(&with_list), Some(place + 65 * width), "{width} {place}");
        }
    }
    assert_eq!(letters_in(b"wxyz"), Some(0));
    assert_eq!(letters_in(b"ABCD xyz abdc"), None);
}
