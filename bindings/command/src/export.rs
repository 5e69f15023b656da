//! `edf export`: the array of a block as bytes, for numpy, or as a grey image.

use crate::failure::{Failure, Status};
use crate::input;
use crate::output::Output;
use crate::progress::Progress;
use edf::{Array, ByteOrder, DataType, Description, Error, File};
use std::borrow::Cow;
use std::ffi::OsStr;
use std::io::{self, Write};
use std::path::Path;

#[derive(Clone, Copy, Debug, PartialEq, Eq)]
enum Format {
    Raw,
    Npy,
    Pgm,
}

pub fn export(path: &OsStr, block: usize, out: &OsStr, output: &mut Output) -> Result<Status, Failure> {
    let format = format_of(out)?;
    if same_file(path, out) {
        return Err(Failure::BadUsage(format!("{} would be overwritten by itself", path.to_string_lossy())));
    }
    let bytes = input::read(path)?;
    let array = File::open(&bytes).and_then(|file| file.block(block)?.array()).map_err(|error| Failure::refused(path, error))?;
    let (start, order) = preamble(format, array.description()).map_err(|why| Failure::refused(path, why))?;
    let mut progress = Progress::new();
    progress.stage(&format!("putting the array of {} in order", path.to_string_lossy()), array.description().byte_length());
    let pixels = in_order(&array, order).map_err(|error| Failure::refused(path, error))?;
    drop(progress);
    save(out, &start, &pixels).map_err(|error| Failure::unreadable(out, &error))?;
    output.line(&format!("{}: {}", out.to_string_lossy(), summary(&array, order, start.len() + pixels.len())))?;
    Ok(Status::Well)
}

/// The bytes of an array in an order: a part of the file where it has them so, else made anew.
fn in_order<'a>(array: &Array<'a>, order: ByteOrder) -> Result<Cow<'a, [u8]>, Error> {
    Ok(match array.bytes(order)? {
        Some(part) => part.into(),
        None => array.read(order)?.into(),
    })
}

fn format_of(out: &OsStr) -> Result<Format, Failure> {
    let ending = Path::new(out).extension().map(|ending| ending.to_ascii_lowercase());
    match ending.as_deref().and_then(OsStr::to_str) {
        Some("raw") => Ok(Format::Raw),
        Some("npy") => Ok(Format::Npy),
        Some("pgm") => Ok(Format::Pgm),
        _ => Err(Failure::BadUsage(format!("{} does not end in .raw, .npy or .pgm", out.to_string_lossy()))),
    }
}

fn same_file(one: &OsStr, other: &OsStr) -> bool {
    match (std::fs::canonicalize(one), std::fs::canonicalize(other)) {
        (Ok(one), Ok(other)) => one == other,
        _ => false,
    }
}

/// What comes before the pixels, and the byte order of these.
fn preamble(format: Format, d: &Description) -> Result<(Vec<u8>, ByteOrder), String> {
    match format {
        Format::Raw => Ok((Vec::new(), ByteOrder::LowByteFirst)),
        Format::Npy => Ok((npy_header(d), ByteOrder::LowByteFirst)),
        Format::Pgm => Ok((pgm_header(d)?, ByteOrder::HighByteFirst)),
    }
}

/// The header of numpy's format, version 1.0; its length is a multiple of 64.
fn npy_header(d: &Description) -> Vec<u8> {
    let kind = match d.data_type {
        DataType::UnsignedByte | DataType::UnsignedShort | DataType::UnsignedInteger | DataType::Unsigned64 => 'u',
        DataType::SignedByte | DataType::SignedShort | DataType::SignedInteger | DataType::Signed64 => 'i',
        DataType::FloatIEEE32 | DataType::FloatIEEE64 => 'f',
    };
    let order = if d.data_type.width() == 1 { '|' } else { '<' };
    let shape: String = d.dims().iter().rev().map(|dim| format!("{dim}, ")).collect();
    let shape = if d.dims().len() == 1 { shape.trim_end() } else { shape.trim_end_matches(", ") };
    let fields = format!("{{'descr': '{order}{kind}{}', 'fortran_order': False, 'shape': ({shape}), }}", d.data_type.width());
    let length = (10 + fields.len() + 1).next_multiple_of(64) - 10;
    let mut header = b"\x93NUMPY\x01\x00".to_vec();
    header.extend((length as u16).to_le_bytes());
    header.extend(format!("{fields:<width$}\n", width = length - 1).bytes());
    header
}

fn pgm_header(d: &Description) -> Result<Vec<u8>, String> {
    let most = match d.data_type {
        DataType::UnsignedByte => 255,
        DataType::UnsignedShort => 65535,
        other => return Err(format!("a .pgm holds UnsignedByte or UnsignedShort, not {}: export .npy", other.name())),
    };
    match *d.dims() {
        [width] if width > 0 => Ok(format!("P5\n{width} 1\n{most}\n").into_bytes()),
        [width, height] => Ok(format!("P5\n{width} {height}\n{most}\n").into_bytes()),
        [_] => Err("a .pgm cannot hold an empty array: export .npy".to_string()),
        _ => Err("a .pgm holds two dimensions, not three: export .npy".to_string()),
    }
}

/// Writes the file; nothing stays of one that cannot be written to its end.
fn save(out: &OsStr, start: &[u8], pixels: &[u8]) -> io::Result<()> {
    let mut file = std::fs::File::create(out)?;
    let written = write_all(&mut file, start, pixels, &format!("writing {}", out.to_string_lossy()));
    if written.is_err() && file.metadata().is_ok_and(|kind| kind.is_file()) {
        let _ = std::fs::remove_file(out);
    }
    written
}

fn write_all(file: &mut std::fs::File, start: &[u8], pixels: &[u8], what: &str) -> io::Result<()> {
    let mut progress = Progress::new();
    file.write_all(start)?;
    let mut done = 0;
    for chunk in pixels.chunks(16 << 20) {
        file.write_all(chunk)?;
        done += chunk.len();
        progress.tell(what, done, pixels.len());
    }
    file.flush()
}

fn summary(array: &Array, order: ByteOrder, length: usize) -> String {
    let d = array.description();
    let dims: Vec<String> = d.dims().iter().map(usize::to_string).collect();
    format!("{} {} {}, {length} bytes", d.data_type.name(), order.name(), dims.join("x"))
}
