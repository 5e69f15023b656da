//! The keywords of a header, listed.

use crate::error::{Code, Error};
use crate::{ffi, text};

/// What the library puts in place of a text that is too long.
const NO_TEXT: &[u8] = &[255];

/// A keyword of a header.
#[derive(Clone, Debug, PartialEq, Eq)]
pub struct Keyword {
    key: String,
    text: Result<String, Error>,
}

impl Keyword {
    /// The key as it is written, without its whitespace.
    pub fn key(&self) -> &str {
        &self.key
    }

    /// The value as text. Code 25.
    pub fn text(&self) -> Result<&str, Error> {
        self.text.as_deref().map_err(|&error| error)
    }
}

/// The keywords of a header that the library accepted, in order. The library writes key, 0, text, 0 for each.
pub(crate) fn keywords(header: &[u8]) -> Vec<Keyword> {
    let listed = text::read(header.len(), |out| ffi::keywords(header, out)).expect("as many bytes as the header has suffice");
    let parts: Vec<&[u8]> = listed.split(|&byte| byte == 0).collect();
    let keyword = |pair: &[&[u8]]| Keyword {
        key: text::string(pair[0].to_vec()),
        text: if pair[1] == NO_TEXT { Err(Error::new(Code::TextTooLong.number(), 0)) } else { Ok(text::string(pair[1].to_vec())) },
    };
    parts.chunks_exact(2).map(keyword).collect()
}
