//! `edf header` and `edf get`.

use crate::failure::{Failure, Status};
use crate::input;
use crate::output::{visible, Output};
use edf::{Block, BlockKind, Error, File, Real};
use std::borrow::Cow;
use std::ffi::OsStr;
use std::os::unix::ffi::OsStrExt;

/// The keywords of a block; or of every block, each under a line with its number and identity.
pub fn header(path: &OsStr, block: Option<usize>, output: &mut Output) -> Result<Status, Failure> {
    let bytes = input::read(path)?;
    let file = File::open(&bytes).map_err(|error| Failure::refused(path, error))?;
    if let Some(number) = block {
        let block = file.block(number).map_err(|error| Failure::refused(path, error))?;
        keywords(&block, output)?;
        return Ok(Status::Well);
    }
    for block in file.blocks() {
        let gap = if block.number() > 0 { "\n" } else { "" };
        output.line(&format!("{gap}block {}: {}", block.number(), name(&block)))?;
        keywords(&block, output)?;
    }
    Ok(Status::Well)
}

fn name(block: &Block) -> String {
    match (block.kind(), block.identity()) {
        (BlockKind::General, _) => "general".to_string(),
        (BlockKind::Data, Some(identity)) => identity.to_string(),
        (BlockKind::Data, None) => "-".to_string(),
    }
}

/// A line for each keyword: its key and its text. A value whose text is too long is shown as it stands.
fn keywords(block: &Block, output: &mut Output) -> Result<(), Failure> {
    for keyword in block.keywords() {
        let stored = || String::from_utf8_lossy(block.value(keyword.key()).unwrap_or_default());
        let text = keyword.text().map_or_else(|_| stored(), Cow::from);
        output.line(&format!("{} = {}", keyword.key(), visible(&text)))?;
    }
    Ok(())
}

/// The value of a keyword as text, exactly.
pub fn get(path: &OsStr, block: usize, key: &OsStr, output: &mut Output) -> Result<Status, Failure> {
    let text = asked(path, block, |block| block.text(key.as_bytes()))?;
    output.line(&text).map(|()| Status::Well)
}

/// The value of a keyword as a real number.
pub fn get_real(path: &OsStr, block: usize, key: &OsStr, output: &mut Output) -> Result<Status, Failure> {
    let real = asked(path, block, |block| block.real(key.as_bytes()))?;
    output.line(&words(real)).map(|()| Status::Well)
}

/// What a call on a block of a file answers.
fn asked<T>(path: &OsStr, block: usize, call: impl FnOnce(Block) -> Result<T, Error>) -> Result<T, Failure> {
    let bytes = input::read(path)?;
    File::open(&bytes).and_then(|file| call(file.block(block)?)).map_err(|error| Failure::refused(path, error))
}

/// A real number in one word or two: the shortest decimal that is read as the same float, then its unit.
fn words(real: Real) -> String {
    let number = Real::Number(real.value());
    match real.unit() {
        None => number.to_string(),
        Some(unit) => format!("{number} {unit}"),
    }
}
