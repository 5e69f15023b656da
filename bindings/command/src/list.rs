//! `edf list`: what the lister prints, for files of any allowed length.

use crate::failure::{Failure, Status};
use crate::input;
use crate::output::Output;
use std::ffi::OsString;

pub fn list(files: &[OsString], output: &mut Output) -> Result<Status, Failure> {
    let mut status = Status::Well;
    for file in files {
        let bytes = match input::read(file) {
            Ok(bytes) => bytes,
            Err(failure) => {
                output.flush()?;
                failure.tell();
                status = status.max(failure.status());
                continue;
            }
        };
        if files.len() > 1 {
            output.line(&format!("{}:", file.to_string_lossy()))?;
        }
        let listing = edf::list(&bytes);
        if listing.split_whitespace().any(|word| word == "refused") {
            status = status.max(Status::Refused);
        }
        output.text(&listing)?;
    }
    Ok(status)
}
