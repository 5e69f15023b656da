//! A file and its blocks.

use crate::array::Array;
use crate::codes::Instance;
use crate::error::{Code, Error};
use crate::keywords::{keywords, Keyword};
use crate::real::Real;
use crate::{ffi, text, MOST_BLOCKS};
use std::fmt;

/// A file that was opened: its bytes and the table of its blocks.
///
/// ```
/// # let bytes = edf::write(&edf::Frame::image(edf::DataType::UnsignedByte, &[2]), "", &[7, 8])?;
/// let file = edf::File::open(&bytes)?;
/// for block in file.blocks() {
///     println!("{} {} {}", block.number(), block.start(), block.data_length());
/// }
/// # assert_eq!(file.blocks().map(|b| (b.start(), b.header_length(), b.data_length())).collect::<Vec<_>>(), [(0, 512, 512)]);
/// # Ok::<(), edf::Error>(())
/// ```
#[derive(Clone, Debug)]
pub struct File<'a> {
    bytes: &'a [u8],
    rows: Vec<Row>,
}

/// Seven numbers of the library's table.
#[derive(Clone, Copy, Debug, PartialEq, Eq)]
struct Row {
    start: usize,
    header_length: usize,
    data_length: usize,
    kind: BlockKind,
    identity: Option<Identity>,
}

/// Whether a block holds defaults for the others, or data.
#[derive(Clone, Copy, Debug, PartialEq, Eq, Hash)]
pub enum BlockKind {
    /// The general block: its keywords hold for blocks that do not have them.
    General,
    /// A data block.
    Data,
}

/// Which data block this is, in files that start with an EDF_ key. It is shown as in a file, `1.Image.Psd` or `1.Image.Psd.2`.
#[derive(Clone, Copy, Debug, PartialEq, Eq, Hash)]
#[allow(missing_docs)]
pub struct Identity {
    pub sequence: i64,
    pub instance: Instance,
    pub memory: i64,
}

impl fmt::Display for Identity {
    fn fmt(&self, f: &mut fmt::Formatter) -> fmt::Result {
        write!(f, "{}.Image.{}", self.sequence, self.instance.name())?;
        match self.memory {
            1 => Ok(()),
            memory => write!(f, ".{memory}"),
        }
    }
}

/// Where bytes stand in a file.
#[derive(Clone, Copy, Debug, PartialEq, Eq, Hash)]
#[allow(missing_docs)]
pub struct Span {
    pub offset: usize,
    pub length: usize,
}

impl Row {
    fn of(numbers: &[u64]) -> Row {
        let identity = Instance::of(numbers[5])
            .map(|instance| Identity { sequence: numbers[4] as i64, instance, memory: numbers[6] as i64 });
        Row {
            start: numbers[0] as usize,
            header_length: numbers[1] as usize,
            data_length: numbers[2] as usize,
            kind: if numbers[3] == 0 { BlockKind::General } else { BlockKind::Data },
            identity,
        }
    }

    /// The bytes of the block.
    fn bytes<'a>(&self, file: &'a [u8]) -> &'a [u8] {
        &file[self.start..][..self.header_length + self.data_length]
    }
}

/// The table of a file's blocks.
fn rows(bytes: &[u8]) -> Result<Vec<Row>, Error> {
    let mut numbers = [0; 7 * MOST_BLOCKS];
    let count = ffi::open(bytes, &mut numbers)?;
    Ok(numbers[..7 * count].chunks_exact(7).map(Row::of).collect())
}

impl<'a> File<'a> {
    /// Opens a file: judges every header of it and finds its blocks. Files that do not start with an EDF_ key may have whitespace
    /// before, between and after their blocks. Codes 1 and 3 to 15.
    pub fn open(bytes: &'a [u8]) -> Result<File<'a>, Error> {
        Ok(File { bytes, rows: rows(bytes)? })
    }

    /// The bytes of the file.
    pub fn bytes(&self) -> &'a [u8] {
        self.bytes
    }

    /// The bytes at a span; none where it does not lie inside the file.
    pub fn part(&self, span: Span) -> &'a [u8] {
        let length = ffi::part(self.bytes, span.offset, span.length);
        self.bytes.get(span.offset..).map_or(&[], |rest| &rest[..length])
    }

    /// The blocks, in the file's order.
    pub fn blocks(&self) -> impl ExactSizeIterator<Item = Block<'a>> + '_ {
        self.rows.iter().enumerate().map(|(number, row)| self.block_of(number, row))
    }

    /// The block with this number, from 0. Code 16.
    pub fn block(&self, number: usize) -> Result<Block<'a>, Error> {
        let row = self.rows.get(number).ok_or_else(|| Error::new(Code::NotFound.number(), 0))?;
        Ok(self.block_of(number, row))
    }

    fn block_of(&self, number: usize, row: &Row) -> Block<'a> {
        Block { file: self.bytes, number, row: *row, source: self.source(number, row) }
    }

    /// The part of the file in which calls on a block answer as in the whole file. A call judges the whole file that it gets, so
    /// that with the whole file each would cost the time of all headers. A block of a file without a general block is looked at by
    /// itself, if the library opens its bytes alone as one block with the same row but for its start. Its answers are then the same,
    /// with spans counted from its start: this is proved (docs/BINDINGS.md).
    fn source(&self, number: usize, row: &Row) -> Source<'a> {
        let alone = Source { bytes: row.bytes(self.bytes), start: row.start, number: 0 };
        let is_first = Row { start: 0, ..*row };
        if alone.bytes.len() < self.bytes.len() && self.rows[0].kind == BlockKind::Data && rows(alone.bytes) == Ok(vec![is_first]) {
            alone
        } else {
            Source { bytes: self.bytes, start: 0, number }
        }
    }
}

/// A part of a file, where it starts, and the number that a block has in it.
#[derive(Clone, Copy, Debug)]
struct Source<'a> {
    bytes: &'a [u8],
    start: usize,
    number: usize,
}

/// A block of a file.
#[derive(Clone, Copy, Debug)]
pub struct Block<'a> {
    file: &'a [u8],
    number: usize,
    row: Row,
    source: Source<'a>,
}

impl<'a> Block<'a> {
    /// Its number in the file, from 0.
    pub fn number(&self) -> usize {
        self.number
    }

    /// Where it starts in the file. In files that do not start with an EDF_ key this is its brace; whitespace before it is in no
    /// block.
    pub fn start(&self) -> usize {
        self.row.start
    }

    /// The bytes of its header.
    pub fn header_length(&self) -> usize {
        self.row.header_length
    }

    /// The bytes of its data.
    pub fn data_length(&self) -> usize {
        self.row.data_length
    }

    /// Whether it is the general block.
    pub fn kind(&self) -> BlockKind {
        self.row.kind
    }

    /// Its identity; none for a general block, and in files that do not start with an EDF_ key.
    pub fn identity(&self) -> Option<Identity> {
        self.row.identity
    }

    /// The header's bytes.
    pub fn header(&self) -> &'a [u8] {
        &self.row.bytes(self.file)[..self.row.header_length]
    }

    /// The data's bytes, as they are stored.
    pub fn data(&self) -> &'a [u8] {
        &self.row.bytes(self.file)[self.row.header_length..]
    }

    /// The keywords of its own header, in order.
    ///
    /// ```
    /// # let bytes = edf::write(&edf::Frame::image(edf::DataType::UnsignedByte, &[2]), "x;", &[7, 8])?;
    /// let file = edf::File::open(&bytes)?;
    /// let keywords = file.block(0)?.keywords();
    /// assert_eq!((keywords[0].key(), keywords[0].text()?), ("EDF_DataBlockID", "1.Image.Psd"));
    /// # Ok::<(), edf::Error>(())
    /// ```
    pub fn keywords(&self) -> Vec<Keyword> {
        keywords(self.header())
    }

    /// Where the value of a keyword stands in the file. A key is looked up without its whitespace and without regard to case: in
    /// the block's own header, then, unless it starts with EDF_, in the general header. Code 16.
    pub fn find(&self, key: impl AsRef<[u8]>) -> Result<Span, Error> {
        let (offset, length) = ffi::find(self.source.bytes, self.source.number, key.as_ref())?;
        Ok(Span { offset: self.source.start + offset, length })
    }

    /// The bytes of the value of a keyword, without outer whitespace and quotes. Code 16.
    pub fn value(&self, key: impl AsRef<[u8]>) -> Result<&'a [u8], Error> {
        let span = self.find(key)?;
        Ok(&self.file[span.offset..][..span.length])
    }

    /// The value of a keyword as text. Codes 16, 25.
    pub fn text(&self, key: impl AsRef<[u8]>) -> Result<String, Error> {
        text::read(text::TEXT_CAPACITY, |out| ffi::text(self.source.bytes, self.source.number, key.as_ref(), out)).map(text::string)
    }

    /// The value of a keyword as a whole number. Codes 16, 18.
    pub fn whole_number(&self, key: impl AsRef<[u8]>) -> Result<i64, Error> {
        ffi::whole_number(self.source.bytes, self.source.number, key.as_ref())
    }

    /// The value of a keyword as a real number with its unit. Codes 16, 18 for another form than [`Real`] says, then 27 outside its
    /// bounds.
    ///
    /// ```
    /// # let header = format!("{{ {:<507} }}\n", "WaveLength = 9.90376e-11 ; SampleDistance = 9.82514_m ;");
    /// # let file = edf::File::open(header.as_bytes())?;
    /// use edf::Real;
    /// let block = file.block(0)?; // its header has WaveLength = 9.90376e-11 and SampleDistance = 9.82514_m
    /// assert_eq!(block.real("WaveLength")?, Real::Number(9.90376e-11));
    /// assert_eq!(block.real("SampleDistance")?, Real::Metres(9.82514));
    /// # Ok::<(), edf::Error>(())
    /// ```
    pub fn real(&self, key: impl AsRef<[u8]>) -> Result<Real, Error> {
        let (unit, value) = ffi::real(self.source.bytes, self.source.number, key.as_ref())?;
        Ok(Real::of(unit, value))
    }

    /// The array of the block, described. Codes 16 to 21.
    pub fn array(&self) -> Result<Array<'a>, Error> {
        Array::describe(self.source.bytes, self.source.number)
    }
}
