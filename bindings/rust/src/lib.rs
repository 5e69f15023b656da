//! Files of the ESRF Data Format, through the proved library. A file is a slice of bytes; nothing of it is copied or kept.
//!
//! ```
//! use edf::{ByteOrder, DataType, File, Frame, Identity, Instance, Pixel};
//!
//! let frame = Frame {
//!     identity: Identity { sequence: 1, instance: Instance::Psd, memory: 1 },
//!     data_type: DataType::UnsignedShort,
//!     byte_order: ByteOrder::HighByteFirst,
//!     dims: &[3, 2],
//!     configuration: 6,
//! };
//! let bytes = edf::write(&frame, "x;", &[0, 1, 0, 2, 0, 3, 0, 4, 0, 5, 0, 6])?;
//!
//! let file = File::open(&bytes)?;
//! let block = file.block(0)?;
//! assert_eq!(block.text("Title")?, "x;");
//! assert_eq!(block.whole_number("Dim_1")?, 3);
//!
//! let array = block.array()?;
//! assert_eq!(array.description().dims(), [3, 2]);
//! assert_eq!(array.pixel([2, 1, 0])?, Pixel::Unsigned(6));
//! assert_eq!(array.read(ByteOrder::LowByteFirst)?, [1, 0, 2, 0, 3, 0, 4, 0, 5, 0, 6, 0]);
//! # Ok::<(), edf::Error>(())
//! ```
//!
//! An error has a code, a position and words:
//!
//! ```
//! let error = edf::File::open(b"no header").unwrap_err();
//! assert_eq!(error.code(), edf::Code::NoHeader);
//! assert_eq!(error.to_string(), "error 3 at 0: no start of a header here");
//! ```
//!
//! What is proved, and of which definitions, is said in docs/THEOREMS.md of the repository, and what is not in docs/BINDINGS.md. This
//! crate adds types and the memory that calls write to.
#![deny(unsafe_code)]
#![warn(missing_docs)]

mod array;
mod codes;
mod error;
mod ffi;
mod file;
mod frame;
mod keywords;
mod list;
mod real;
mod text;

pub use array::{Array, Description, Origins, Pixel};
pub use codes::{ByteOrder, Compression, DataType, Instance, Origin, Unit};
pub use error::{Code, Error};
pub use file::{Block, BlockKind, File, Identity, Span};
pub use frame::{write, Frame};
pub use keywords::Keyword;
pub use list::list;
pub use real::Real;
pub use text::{escape, unescape};

/// The most blocks of a file.
pub const MOST_BLOCKS: usize = 256;

/// The most bytes of a file.
pub const MOST_BYTES: usize = 1 << 30;
