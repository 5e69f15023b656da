//! The listing of a file.

use crate::{ffi, text};

/// Bytes that suffice for every listing.
const CAPACITY: usize = 76_828;

/// What the lister prints for a file, at any length: `blocks` and their number, then a line for each block, or one
/// line `refused`, code, position. Straight after each field of an array stands the letter of its [`Origin`](crate::Origin).
///
/// ```
/// let bytes = edf::write(&edf::Frame::image(edf::DataType::UnsignedByte, &[3, 2]), "", &[1, 2, 3, 4, 5, 6])?;
/// assert_eq!(edf::list(&bytes), "blocks 1\n0 0 512 512 1.Image.Psd UnsignedByteo HighByteFirsto 3x2o 1o 1d 0d\n");
/// assert_eq!(edf::list(b""), "refused 3 0\n");
/// # Ok::<(), edf::Error>(())
/// ```
pub fn list(bytes: &[u8]) -> String {
    text::read(CAPACITY, |out| ffi::list(bytes, out)).map(text::string).expect("76,828 bytes suffice for every listing, which is proved")
}
