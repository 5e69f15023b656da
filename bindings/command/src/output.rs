//! Standard output, buffered. A reader who has gone ends the command quietly.

use crate::failure::Failure;
use std::ffi::OsStr;
use std::io::{self, BufWriter, ErrorKind, StdoutLock, Write};

pub struct Output {
    stream: BufWriter<StdoutLock<'static>>,
}

impl Output {
    pub fn new() -> Output {
        Output { stream: BufWriter::new(io::stdout().lock()) }
    }

    pub fn text(&mut self, text: &str) -> Result<(), Failure> {
        self.stream.write_all(text.as_bytes()).map_err(failure)
    }

    pub fn line(&mut self, text: &str) -> Result<(), Failure> {
        self.text(text)?;
        self.text("\n")
    }

    pub fn flush(&mut self) -> Result<(), Failure> {
        self.stream.flush().map_err(failure)
    }
}

fn failure(error: io::Error) -> Failure {
    match error.kind() {
        ErrorKind::BrokenPipe => Failure::Unread,
        _ => Failure::unreadable(OsStr::new("standard output"), &error),
    }
}

/// Text on one line: control characters are shown as escapes.
pub fn visible(text: &str) -> String {
    text.chars().map(|c| if c.is_control() { c.escape_default().to_string() } else { c.to_string() }).collect()
}

#[cfg(test)]
mod tests {
    #[test]
    fn visible() {
        assert_eq!(super::visible("a\\b\n\t\u{1}\"c\""), "a\\b\\n\\t\\u{1}\"c\"");
    }
}
