//! The command line.

use crate::failure::Failure;
use std::ffi::{OsStr, OsString};

#[derive(Debug, PartialEq, Eq)]
pub enum Command {
    Help,
    Version,
    List { files: Vec<OsString> },
    Header { file: OsString, block: Option<usize> },
    Get { file: OsString, block: usize, key: OsString },
    GetReal { file: OsString, block: usize, key: OsString },
    Export { file: OsString, block: usize, out: OsString },
    Check { files: Vec<OsString> },
}

/// What the words of the command line ask for.
pub fn command(words: impl Iterator<Item = OsString>) -> Result<Command, Failure> {
    let mut plain = Vec::new();
    let mut real = false;
    let mut words = words;
    while let Some(word) = words.next() {
        match word.to_str() {
            Some("--help" | "-h") => return Ok(Command::Help),
            Some("--version" | "-V") => return Ok(Command::Version),
            Some("--real") => real = true,
            Some("--") => plain.extend(words.by_ref()),
            Some(option) if option.len() > 1 && option.starts_with('-') => {
                return Err(Failure::BadUsage(format!("there is no option {option}")))
            }
            _ => plain.push(word),
        }
    }
    if plain.is_empty() {
        return Err(Failure::BadUsage("which command?".to_string()));
    }
    let name = plain.remove(0);
    if real && name != "get" {
        return Err(Failure::BadUsage("--real is an option of get alone".to_string()));
    }
    match (name.to_str(), plain.as_slice()) {
        (Some("list"), [_, ..]) => Ok(Command::List { files: plain }),
        (Some("check"), [_, ..]) => Ok(Command::Check { files: plain }),
        (Some("header"), [file]) => Ok(Command::Header { file: file.clone(), block: None }),
        (Some("header"), [file, block]) => Ok(Command::Header { file: file.clone(), block: Some(number(block)?) }),
        (Some("get"), [file, block, key]) => {
            let (file, block, key) = (file.clone(), number(block)?, key.clone());
            Ok(if real { Command::GetReal { file, block, key } } else { Command::Get { file, block, key } })
        }
        (Some("export"), [file, block, out]) => {
            Ok(Command::Export { file: file.clone(), block: number(block)?, out: out.clone() })
        }
        (Some(known), _) => Err(Failure::BadUsage(match shape(known) {
            Some(shape) => format!("the form is: edf {shape}"),
            None => format!("there is no command {known}"),
        })),
        (None, _) => Err(Failure::BadUsage(format!("there is no command {}", name.to_string_lossy()))),
    }
}

fn shape(name: &str) -> Option<&'static str> {
    let shapes = ["list FILE...", "header FILE [BLOCK]", "get [--real] FILE BLOCK KEY", "export FILE BLOCK OUT", "check FILE..."];
    shapes.into_iter().find(|shape| shape.split(' ').next() == Some(name))
}

fn number(word: &OsStr) -> Result<usize, Failure> {
    let bad = || Failure::BadUsage(format!("a block is a number from 0, not {}", word.to_string_lossy()));
    word.to_str().filter(|word| word.bytes().all(|b| b.is_ascii_digit())).and_then(|word| word.parse().ok()).ok_or_else(bad)
}

#[cfg(test)]
mod tests {
    use super::*;

    fn read(words: &str) -> Result<Command, String> {
        command(words.split_whitespace().map(OsString::from)).map_err(|failure| format!("{failure:?}"))
    }

    #[test]
    fn forms() {
        assert_eq!(read("list a b"), Ok(Command::List { files: vec!["a".into(), "b".into()] }));
        assert_eq!(read("header a"), Ok(Command::Header { file: "a".into(), block: None }));
        assert_eq!(read("header a 2"), Ok(Command::Header { file: "a".into(), block: Some(2) }));
        assert_eq!(read("get - 0 -- -k"), Ok(Command::Get { file: "-".into(), block: 0, key: "-k".into() }));
        for words in ["get --real a 0 k", "get a 0 k --real", "--real get a 0 k"] {
            assert_eq!(read(words), Ok(Command::GetReal { file: "a".into(), block: 0, key: "k".into() }));
        }
        assert_eq!(read("get a 0 -- --real"), Ok(Command::Get { file: "a".into(), block: 0, key: "--real".into() }));
        assert_eq!(read("export --help"), Ok(Command::Help));
        assert_eq!(read("list -- --help"), Ok(Command::List { files: vec!["--help".into()] }));
    }

    #[test]
    fn bad_forms() {
        for words in ["", "list", "lists a", "get a 0", "get a x k", "get a -1 k", "get a +1 k", "header a 0 1", "list -x a", "export a 0"] {
            assert!(read(words).unwrap_err().starts_with("BadUsage"), "{words}");
        }
        for words in ["--real", "get --real a 0", "list --real a", "header --real a 0", "get --reals a 0 k"] {
            assert!(read(words).unwrap_err().starts_with("BadUsage"), "{words}");
        }
        assert!(read("get a 99999999999999999999 k").is_err());
    }
}
