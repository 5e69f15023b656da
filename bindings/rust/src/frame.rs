//! Writing a file of one block.

use crate::codes::{ByteOrder, DataType, Instance};
use crate::error::{Code, Error};
use crate::file::Identity;
use crate::{ffi, text};

/// What to write, but for the title and the pixels.
#[derive(Clone, Copy, Debug, PartialEq, Eq, Hash)]
pub struct Frame<'a> {
    /// Which block it is.
    pub identity: Identity,
    /// The type of the elements.
    pub data_type: DataType,
    /// The order of the bytes of an element in the file.
    pub byte_order: ByteOrder,
    /// One to three dimensions, each 1 to 1,048,576.
    pub dims: &'a [usize],
    /// The raster configuration in the file: 1 to 2, 8 or 48, by the number of dimensions.
    pub configuration: u32,
}

impl<'a> Frame<'a> {
    /// The frame `1.Image.Psd`, high byte first, in raster configuration 1.
    pub fn image(data_type: DataType, dims: &'a [usize]) -> Frame<'a> {
        let identity = Identity { sequence: 1, instance: Instance::Psd, memory: 1 };
        Frame { identity, data_type, byte_order: ByteOrder::HighByteFirst, dims, configuration: 1 }
    }
}

/// More than the header and the filling of a written file.
const HEADER_CAPACITY: usize = 4096;

/// A file of one block. The pixels come in raster configuration 1, high byte first. Codes 24, 25.
///
/// ```
/// use edf::{DataType, File, Frame};
/// let bytes = edf::write(&Frame::image(DataType::UnsignedByte, &[3, 2]), "a title", &[1, 2, 3, 4, 5, 6])?;
/// assert_eq!(File::open(&bytes)?.block(0)?.text("Title")?, "a title");
/// # Ok::<(), edf::Error>(())
/// ```
pub fn write(frame: &Frame, title: impl AsRef<[u8]>, pixels: &[u8]) -> Result<Vec<u8>, Error> {
    if frame.dims.len() > 3 {
        return Err(Error::new(Code::BadArgument.number(), 0));
    }
    let mut dims = [0; 3];
    dims[..frame.dims.len()].copy_from_slice(frame.dims);
    let numbers = ffi::Numbers {
        sequence: frame.identity.sequence,
        instance: frame.identity.instance as u8,
        memory: frame.identity.memory,
        datatype: frame.data_type as u8,
        byteorder: frame.byte_order as u8,
        n: frame.dims.len() as u8,
        dims,
        configuration: frame.configuration,
    };
    text::read(pixels.len() + HEADER_CAPACITY, |out| ffi::write(&numbers, title.as_ref(), pixels, out))
}
