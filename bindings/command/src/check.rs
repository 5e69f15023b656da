//! `edf check`: whether every block of a file can be described; if not, what is wrong, and the bytes there. Notes say what is assumed.

use crate::context::context;
use crate::failure::{Failure, Status};
use crate::input;
use crate::output::Output;
use edf::{Block, BlockKind, Code, Description, Error, File, Origin};
use std::ffi::OsString;

pub fn check(files: &[OsString], output: &mut Output) -> Result<Status, Failure> {
    let mut status = Status::Well;
    for path in files {
        let found = match input::read(path) {
            Ok(bytes) => check_bytes(&bytes, &path.to_string_lossy(), output)?,
            Err(failure) => {
                output.flush()?;
                failure.tell();
                failure.status()
            }
        };
        status = status.max(found);
    }
    Ok(status)
}

fn check_bytes(bytes: &[u8], name: &str, output: &mut Output) -> Result<Status, Failure> {
    let file = match File::open(bytes) {
        Ok(file) => file,
        Err(error) => {
            output.line(&format!("{name}: {error}"))?;
            if error.code() != Code::FileTooLarge {
                output.text(&context(bytes, error.position()))?;
            }
            return Ok(Status::Refused);
        }
    };
    let mut status = Status::Well;
    for block in file.blocks().filter(|block| block.kind() == BlockKind::Data) {
        let assumed = match block.array() {
            Ok(array) => defaulted(array.description()),
            Err(error) => {
                output.line(&format!("{name}: block {}: {error}", block.number()))?;
                output.text(&context(bytes, guilty(&block, &error)))?;
                status = Status::Refused;
                not_found(&block)
            }
        };
        for ((key, assumption), is_assumed) in ASSUMED.into_iter().zip(assumed) {
            if is_assumed {
                output.line(&format!("{name}: block {}: note: {key} is not written; {assumption}", block.number()))?;
            }
        }
    }
    if status == Status::Well {
        let count = file.blocks().len();
        output.line(&format!("{name}: ok, {count} block{}", if count == 1 { "" } else { "s" }))?;
    }
    Ok(status)
}

/// The keywords that get a note where no header in reach has them, with what is then assumed.
const ASSUMED: [(&str, &str); 3] =
    [("DataType", "FloatIEEE32 is assumed"), ("ByteOrder", "HighByteFirst is assumed"), ("Dim_1", "the array is empty")];

/// Which of them no header in reach has, for a block that is described: those whose origin is the default.
fn defaulted(description: &Description) -> [bool; 3] {
    let origins = description.origins;
    [origins.data_type, origins.byte_order, origins.dims].map(|origin| origin == Origin::Default)
}

/// The same for a block that is refused: those that are not found.
fn not_found(block: &Block) -> [bool; 3] {
    ASSUMED.map(|(key, _)| block.find(key).is_err_and(|error| error.code() == Code::NotFound))
}

/// Where in the file the cause stands: the value of the field that is wrong; else the start of the block.
fn guilty(block: &Block, error: &Error) -> usize {
    let keys: &[&str] = match (error.code(), error.position()) {
        (Code::UnknownWord, 1) => &["DataType"],
        (Code::UnknownWord, 2) => &["ByteOrder"],
        (Code::UnknownWord, _) => &["Compression"],
        (Code::BadNumber, 4) => return wrong_dimension(block),
        (Code::BadNumber, 5) => &["DataRasterConfiguration"],
        (Code::BadNumber, 6) => &["RasterOrientation"],
        (Code::BadNumber, _) | (Code::OffsetOnFloats, _) => &["DataValueOffset"],
        (Code::TooManyDimensions, _) => &["Dim_4"],
        (Code::DataTooShort, _) if block.identity().is_some() => &["EDF_BinarySize"],
        (Code::DataTooShort, _) => &["Size"],
        _ => &[],
    };
    keys.iter().find_map(|key| block.find(key).ok()).map_or(block.start(), |span| span.offset)
}

/// Where the first dimension stands that is no number from 1 to 1,048,576.
fn wrong_dimension(block: &Block) -> usize {
    let allowed = |key: &&str| block.whole_number(key).is_ok_and(|dim| (1..=1_048_576).contains(&dim));
    let key = ["Dim_1", "Dim_2", "Dim_3"].into_iter().find(|key| !allowed(key)).unwrap_or("Dim_1");
    block.find(key).map_or(block.start(), |span| span.offset)
}
