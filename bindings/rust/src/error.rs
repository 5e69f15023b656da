//! Errors: a code, a position and words.

use crate::ffi;
use std::fmt;

/// Why a call failed; the discriminant is the number of the error.
#[derive(Clone, Copy, Debug, PartialEq, Eq, Hash)]
#[repr(u8)]
pub enum Code {
    /// File over 1,073,741,824 bytes.
    FileTooLarge = 1,
    /// Table under 256 rows; no call of this crate answers it.
    TableTooSmall,
    /// No start of a header here.
    NoHeader,
    /// Byte 0, a byte above 127 or `{` inside a header.
    BadHeaderByte,
    /// No `}` with LF or CR LF after it in the 65,536 bytes from the block's start.
    NoHeaderEnd,
    /// Something after the last `;`, a statement without `=`, or an empty key.
    BadStatement,
    /// Key over 64 characters or value over 2,048 bytes.
    TooLong,
    /// Key twice in a header.
    KeyRepeated,
    /// A rule on EDF_ keys or Size broken.
    KeyRuleBroken,
    /// EDF_BinaryFileName counts: the data is in another file.
    DataElsewhere,
    /// Header length not a multiple of the boundary, or not EDF_HeaderSize; only in files that start with an EDF_ key.
    BadHeaderLength,
    /// Data past the end of the file.
    DataPastEnd,
    /// Identity twice.
    IdentityRepeated,
    /// Bytes left after 256 blocks; in files that do not start with an EDF_ key, other than whitespace.
    TooManyBlocks,
    /// EDF_DataBlocks does not match.
    BlockCountWrong,
    /// No such block or keyword, or an array asked of the general block.
    NotFound,
    /// Unknown word.
    UnknownWord,
    /// Bad number or range.
    BadNumber,
    /// Dim_1 to Dim_4 all found.
    TooManyDimensions,
    /// Data shorter than the array.
    DataTooShort,
    /// Nonzero offset on floats.
    OffsetOnFloats,
    /// Buffer too small.
    BufferTooSmall,
    /// Index outside the array.
    IndexOutside,
    /// Bad argument.
    BadArgument,
    /// Text over 1,023 characters.
    TextTooLong,
    /// Real number with digits over 9,007,199,254,740,992 or a power of ten outside -22 to 22. No error has the number 26.
    OutOfBounds = 27,
}

impl Code {
    /// All codes, in the order of their numbers.
    pub const ALL: [Code; 26] = [
        Code::FileTooLarge,
        Code::TableTooSmall,
        Code::NoHeader,
        Code::BadHeaderByte,
        Code::NoHeaderEnd,
        Code::BadStatement,
        Code::TooLong,
        Code::KeyRepeated,
        Code::KeyRuleBroken,
        Code::DataElsewhere,
        Code::BadHeaderLength,
        Code::DataPastEnd,
        Code::IdentityRepeated,
        Code::TooManyBlocks,
        Code::BlockCountWrong,
        Code::NotFound,
        Code::UnknownWord,
        Code::BadNumber,
        Code::TooManyDimensions,
        Code::DataTooShort,
        Code::OffsetOnFloats,
        Code::BufferTooSmall,
        Code::IndexOutside,
        Code::BadArgument,
        Code::TextTooLong,
        Code::OutOfBounds,
    ];

    /// The number of the error, 1 to 25 or 27.
    pub fn number(self) -> u8 {
        self as u8
    }

    /// What it means, in words.
    pub fn words(self) -> &'static str {
        ffi::words(self.number())
    }
}

/// An error of the library.
///
/// ```
/// let error = edf::escape("\u{0}").unwrap_err();
/// assert_eq!((error.number(), error.position(), error.words()), (24, 0, "bad argument"));
/// let error: Box<dyn std::error::Error> = error.into();
/// assert_eq!(error.to_string(), "error 24 at 0: bad argument");
/// ```
#[derive(Clone, Copy, Debug, PartialEq, Eq, Hash)]
pub struct Error {
    code: Code,
    position: usize,
}

impl Error {
    /// The error with this number, which the library answered.
    pub(crate) fn new(number: u8, position: usize) -> Error {
        let code = Code::ALL.into_iter().find(|code| code.number() == number).expect("the library answers 0 to 25 or 27");
        Error { code, position }
    }

    /// Why the call failed.
    pub fn code(&self) -> Code {
        self.code
    }

    /// The number of the code, 1 to 25 or 27.
    pub fn number(&self) -> u8 {
        self.code.number()
    }

    /// Where: for codes 3 to 14 an offset in the file, the block's start or (4) the byte itself; for 17 and 18 the number of the
    /// field, or 0 for a keyword read as a whole number or as a real number; else 0. Where whitespace may stand before a block, the
    /// start is the first byte after it. For a file of whitespace alone that is the file's length (3).
    pub fn position(&self) -> usize {
        self.position
    }

    /// What the code means, in words.
    pub fn words(&self) -> &'static str {
        self.code.words()
    }

    /// The field that an unknown word or a bad number stands in, as `"DataType"`.
    pub fn field(&self) -> Option<&'static str> {
        match self.code {
            Code::UnknownWord | Code::BadNumber if self.position > 0 => Some(ffi::field_name(self.position)),
            _ => None,
        }
    }
}

impl fmt::Display for Error {
    fn fmt(&self, f: &mut fmt::Formatter) -> fmt::Result {
        write!(f, "error {} at {}: {}", self.number(), self.position, self.words())?;
        match self.field() {
            Some(field) => write!(f, " in {field}"),
            None => Ok(()),
        }
    }
}

impl std::error::Error for Error {}
