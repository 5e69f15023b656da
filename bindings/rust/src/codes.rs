//! Numbers of the library as enums. Each discriminant is the library's number.

use crate::ffi;
use std::fmt;

/// The type of an array's elements.
#[derive(Clone, Copy, Debug, PartialEq, Eq, Hash)]
#[repr(u8)]
#[allow(missing_docs)]
pub enum DataType {
    UnsignedByte = 1,
    SignedByte,
    UnsignedShort,
    SignedShort,
    UnsignedInteger,
    SignedInteger,
    FloatIEEE32,
    Unsigned64,
    Signed64,
    FloatIEEE64,
}

impl DataType {
    /// All types, in the order of their numbers from 1.
    pub const ALL: [DataType; 10] = [
        DataType::UnsignedByte,
        DataType::SignedByte,
        DataType::UnsignedShort,
        DataType::SignedShort,
        DataType::UnsignedInteger,
        DataType::SignedInteger,
        DataType::FloatIEEE32,
        DataType::Unsigned64,
        DataType::Signed64,
        DataType::FloatIEEE64,
    ];

    pub(crate) fn of(number: u64) -> DataType {
        *DataType::ALL.get((number as usize).wrapping_sub(1)).expect("the library answers 1 to 10")
    }

    /// The word for it in a file.
    pub fn name(self) -> &'static str {
        ffi::datatype_name(self as u8)
    }

    /// The bytes of an element.
    pub fn width(self) -> usize {
        ffi::datatype_width(self as u8)
    }
}

/// The order of the bytes of an element.
#[derive(Clone, Copy, Debug, PartialEq, Eq, Hash)]
#[repr(u8)]
#[allow(missing_docs)]
pub enum ByteOrder {
    HighByteFirst = 1,
    LowByteFirst,
}

impl ByteOrder {
    /// The order of this machine.
    pub const NATIVE: ByteOrder = if cfg!(target_endian = "big") { ByteOrder::HighByteFirst } else { ByteOrder::LowByteFirst };

    pub(crate) fn of(number: u64) -> ByteOrder {
        match number {
            1 => ByteOrder::HighByteFirst,
            2 => ByteOrder::LowByteFirst,
            _ => unreachable!("the library answers 1 or 2"),
        }
    }

    /// The word for it in a file.
    pub fn name(self) -> &'static str {
        ffi::byteorder_name(self as u8)
    }
}

/// How an array is compressed: not at all.
#[derive(Clone, Copy, Debug, PartialEq, Eq, Hash)]
#[repr(u8)]
#[allow(missing_docs)]
pub enum Compression {
    None = 1,
}

impl Compression {
    pub(crate) fn of(number: u64) -> Compression {
        match number {
            1 => Compression::None,
            _ => unreachable!("the library answers 1"),
        }
    }
}

/// Where a field of a description came from. It is shown as `own`, `general` or `default`.
///
/// ```
/// use edf::Origin;
/// assert_eq!([Origin::Own, Origin::General, Origin::Default].map(|origin| origin.to_string()), ["own", "general", "default"]);
/// assert_eq!([Origin::Own, Origin::General, Origin::Default].map(Origin::letter), ['o', 'g', 'd']);
/// ```
#[derive(Clone, Copy, Debug, PartialEq, Eq, Hash)]
#[repr(u8)]
pub enum Origin {
    /// The block's own header.
    Own = 1,
    /// The general header.
    General,
    /// The default, because no header in reach has the keyword.
    Default,
}

impl Origin {
    pub(crate) fn of(number: u64) -> Origin {
        match number {
            1 => Origin::Own,
            2 => Origin::General,
            3 => Origin::Default,
            _ => unreachable!("the library answers 1 to 3"),
        }
    }

    /// The letter for it in a listing.
    pub fn letter(self) -> char {
        match self {
            Origin::Own => 'o',
            Origin::General => 'g',
            Origin::Default => 'd',
        }
    }
}

impl fmt::Display for Origin {
    fn fmt(&self, f: &mut fmt::Formatter) -> fmt::Result {
        f.pad(match self {
            Origin::Own => "own",
            Origin::General => "general",
            Origin::Default => "default",
        })
    }
}

/// The unit that a real number is written with. It is shown as in a file: `m`, `deg` or `rad`.
#[derive(Clone, Copy, Debug, PartialEq, Eq, Hash)]
#[repr(u8)]
#[allow(missing_docs)]
pub enum Unit {
    Metres = 1,
    Degrees,
    Radians,
}

impl Unit {
    /// The word for it in a file.
    pub fn name(self) -> &'static str {
        ffi::unit_name(self as u8)
    }
}

impl fmt::Display for Unit {
    fn fmt(&self, f: &mut fmt::Formatter) -> fmt::Result {
        f.pad(self.name())
    }
}

/// What a block of an image holds: its values or their errors.
#[derive(Clone, Copy, Debug, PartialEq, Eq, Hash)]
#[repr(u8)]
#[allow(missing_docs)]
pub enum Instance {
    Psd = 1,
    Error,
}

impl Instance {
    pub(crate) fn of(number: u64) -> Option<Instance> {
        match number {
            1 => Some(Instance::Psd),
            2 => Some(Instance::Error),
            _ => None,
        }
    }

    /// The word for it in a file.
    pub fn name(self) -> &'static str {
        match self {
            Instance::Psd => "Psd",
            Instance::Error => "Error",
        }
    }
}
