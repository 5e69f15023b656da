//! The array of a block.

use crate::codes::{ByteOrder, Compression, DataType, Origin};
use crate::error::Error;
use crate::{ffi, text};

/// How the array of a block is stored.
#[derive(Clone, Copy, Debug, PartialEq, Eq, Hash)]
pub struct Description {
    /// The type of its elements.
    pub data_type: DataType,
    /// The order of the bytes of an element in the file.
    pub byte_order: ByteOrder,
    /// How it is compressed.
    pub compression: Compression,
    /// The raster configuration in the file, 1 to 48. [`Array::read`] and [`Array::pixel`] undo it.
    pub configuration: u32,
    /// The raster orientation, 1 to 48. It is told, not applied.
    pub orientation: u32,
    /// What is added to each stored whole number. [`Array::read`] and [`Array::pixel`] have done so.
    pub offset: i64,
    /// Where each of these fields came from.
    pub origins: Origins,
    n: usize,
    dims: [usize; 3],
}

impl Description {
    /// Its dimensions, one to three; the first index runs fastest. An empty array has the dimension 0.
    pub fn dims(&self) -> &[usize] {
        &self.dims[..self.n]
    }

    /// The number of its elements.
    pub fn elements(&self) -> usize {
        self.dims.iter().product()
    }

    /// The number of its bytes.
    pub fn byte_length(&self) -> usize {
        self.elements() * self.data_type.width()
    }
}

/// Where each field of a [`Description`] came from.
///
/// ```
/// # let header = format!("{{ {:<507} }}\n", "ByteOrder = HighByteFirst ; Dim_1 = 1 ; Size = 4 ;");
/// # let bytes = [header.as_bytes(), &[0; 4]].concat();
/// # let file = edf::File::open(&bytes)?;
/// use edf::{DataType, Origin};
/// let array = file.block(0)?.array()?; // its header has ByteOrder, Dim_1 and Size
/// let description = array.description();
/// assert_eq!((description.data_type, description.origins.data_type), (DataType::FloatIEEE32, Origin::Default));
/// assert_eq!((description.origins.byte_order, description.origins.dims), (Origin::Own, Origin::Own));
/// # Ok::<(), edf::Error>(())
/// ```
#[derive(Clone, Copy, Debug, PartialEq, Eq, Hash)]
pub struct Origins {
    /// That of DataType.
    pub data_type: Origin,
    /// That of ByteOrder.
    pub byte_order: Origin,
    /// That of Compression.
    pub compression: Origin,
    /// That of Dim_1.
    pub dims: Origin,
    /// That of DataRasterConfiguration.
    pub configuration: Origin,
    /// That of RasterOrientation.
    pub orientation: Origin,
    /// That of DataValueOffset.
    pub offset: Origin,
}

impl Origins {
    /// Those of the library's seven numbers, in the order of the fields.
    fn of(numbers: [u64; 7]) -> Origins {
        let [data_type, byte_order, compression, dims, configuration, orientation, offset] = numbers.map(Origin::of);
        Origins { data_type, byte_order, compression, dims, configuration, orientation, offset }
    }
}

/// One pixel, by the class of the array's type.
#[derive(Clone, Copy, Debug, PartialEq)]
#[allow(missing_docs)]
pub enum Pixel {
    Unsigned(u64),
    Signed(i64),
    Float32(f32),
    Float64(f64),
}

/// The array of a block.
///
/// ```
/// # let bytes = edf::write(&edf::Frame::image(edf::DataType::SignedShort, &[2, 1]), "", &[255, 255, 0, 5])?;
/// # let file = edf::File::open(&bytes)?;
/// let array = file.block(0)?.array()?;
/// let pixels: Vec<i16> = array.read(edf::ByteOrder::NATIVE)?.chunks_exact(2).map(|b| i16::from_ne_bytes([b[0], b[1]])).collect();
/// assert_eq!(pixels, [-1, 5]);
/// # Ok::<(), edf::Error>(())
/// ```
#[derive(Clone, Copy, Debug)]
pub struct Array<'a> {
    file: &'a [u8],
    block: usize,
    description: Description,
}

impl<'a> Array<'a> {
    pub(crate) fn describe(file: &'a [u8], block: usize) -> Result<Array<'a>, Error> {
        let f = ffi::describe(file, block)?;
        let description = Description {
            data_type: DataType::of(f.datatype),
            byte_order: ByteOrder::of(f.byteorder),
            compression: Compression::of(f.compression),
            configuration: f.configuration as u32,
            orientation: f.orientation as u32,
            offset: f.offset,
            origins: Origins::of(f.origins),
            n: f.n as usize,
            dims: f.dims.map(|dim| dim as usize),
        };
        Ok(Array { file, block, description })
    }

    /// How it is stored.
    pub fn description(&self) -> &Description {
        &self.description
    }

    /// Its bytes in raster configuration 1 (index 1 runs fastest), in this byte order.
    pub fn read(&self, order: ByteOrder) -> Result<Vec<u8>, Error> {
        text::read(self.description.byte_length(), |out| self.read_into(order, out))
    }

    /// The same at the front of a buffer; the answer is their number. Code 22.
    pub fn read_into(&self, order: ByteOrder, out: &mut [u8]) -> Result<usize, Error> {
        ffi::read_array(self.file, self.block, order as u8, out)
    }

    /// The same as a part of the file, with nothing copied; none where the file does not store them so, in another byte order, raster
    /// configuration or with a value offset.
    ///
    /// ```
    /// # let bytes = edf::write(&edf::Frame::image(edf::DataType::UnsignedShort, &[2, 1]), "", &[0, 1, 0, 2])?;
    /// # let file = edf::File::open(&bytes)?;
    /// let array = file.block(0)?.array()?;
    /// assert_eq!(array.bytes(edf::ByteOrder::HighByteFirst)?, Some(&[0, 1, 0, 2][..]));
    /// assert_eq!(array.bytes(edf::ByteOrder::LowByteFirst)?, None);
    /// # Ok::<(), edf::Error>(())
    /// ```
    pub fn bytes(&self, order: ByteOrder) -> Result<Option<&'a [u8]>, Error> {
        let span = ffi::stored_array(self.file, self.block, order as u8)?;
        Ok(span.map(|(start, length)| &self.file[start..start + length]))
    }

    /// One pixel. Indices count from 0; those past the array's dimensions are 0. Code 23.
    pub fn pixel(&self, index: [usize; 3]) -> Result<Pixel, Error> {
        let sample = ffi::read_pixel(self.file, self.block, index)?;
        Ok(match sample.class {
            1 => Pixel::Unsigned(sample.unsigned),
            2 => Pixel::Signed(sample.signed),
            3 => Pixel::Float32(sample.float32),
            4 => Pixel::Float64(sample.float64),
            _ => unreachable!("the library answers 1 to 4"),
        })
    }
}
