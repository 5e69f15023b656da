//! Text in value form and back.

use crate::error::Error;
use crate::ffi;

/// The most characters of a text, and the most bytes of its value form.
pub(crate) const TEXT_CAPACITY: usize = 1023;
const VALUE_CAPACITY: usize = 2 * TEXT_CAPACITY + 2;

/// What a call writes into a buffer of this size.
pub(crate) fn read(capacity: usize, call: impl FnOnce(&mut [u8]) -> Result<usize, Error>) -> Result<Vec<u8>, Error> {
    let mut out = vec![0; capacity];
    let length = call(&mut out)?;
    out.truncate(length);
    Ok(out)
}

/// Text of bytes from 1 to 127, each a character.
pub(crate) fn string(bytes: Vec<u8>) -> String {
    bytes.into_iter().map(char::from).collect()
}

/// Text in value form: in quotes, with escapes. Codes 24, 25.
///
/// ```
/// assert_eq!(edf::escape("x;")?, r#""x\:""#);
/// # Ok::<(), edf::Error>(())
/// ```
pub fn escape(text: impl AsRef<[u8]>) -> Result<String, Error> {
    read(VALUE_CAPACITY, |out| ffi::escape(text.as_ref(), out)).map(string)
}

/// The text of the bytes between `=` and `;` of a statement. Codes 24, 25.
///
/// ```
/// assert_eq!(edf::unescape(r" a\:b ")?, "a;b");
/// # Ok::<(), edf::Error>(())
/// ```
pub fn unescape(value: impl AsRef<[u8]>) -> Result<String, Error> {
    read(TEXT_CAPACITY, |out| ffi::unescape(value.as_ref(), out)).map(string)
}
