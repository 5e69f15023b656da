//! Progress of long work on standard error, where that is a terminal.

use std::io::{self, IsTerminal, Write};
use std::time::{Duration, Instant};

/// Work shorter than this is not told.
const SILENT: Duration = Duration::from_millis(500);
const BETWEEN: Duration = Duration::from_millis(100);

/// Bytes that take long to put in order.
const LONG: usize = 64 << 20;

pub struct Progress<W: Write> {
    screen: Option<W>,
    last: Instant,
    wait: Duration,
    shown: bool,
}

impl Progress<io::Stderr> {
    pub fn new() -> Progress<io::Stderr> {
        Progress::on(io::stderr().is_terminal().then(io::stderr), SILENT)
    }
}

impl<W: Write> Progress<W> {
    fn on(screen: Option<W>, wait: Duration) -> Progress<W> {
        Progress { screen, last: Instant::now(), wait, shown: false }
    }

    /// Tells that `done` of `all` bytes are done, where the last word was long enough ago. `all` is 0 where it is not known.
    pub fn tell(&mut self, what: &str, done: usize, all: usize) {
        if self.screen.is_none() || self.last.elapsed() < self.wait {
            return;
        }
        let mib = |bytes: usize| bytes >> 20;
        let share = if all > 0 { format!(" of {} MiB, {} %", mib(all), done * 100 / all) } else { " MiB".to_string() };
        self.show(&format!("{what}: {}{share}", mib(done)));
    }

    /// Tells what is done next, where it is so many bytes that it takes long.
    pub fn stage(&mut self, what: &str, bytes: usize) {
        if bytes >= LONG {
            self.show(what);
        }
    }

    fn show(&mut self, text: &str) {
        let Some(screen) = &mut self.screen else { return };
        // A screen that cannot be written to is no reason to stop the work.
        let _ = write!(screen, "\r\x1b[K{text}").and_then(|()| screen.flush());
        (self.last, self.wait, self.shown) = (Instant::now(), BETWEEN, true);
    }
}

impl<W: Write> Drop for Progress<W> {
    fn drop(&mut self) {
        if let (Some(screen), true) = (&mut self.screen, self.shown) {
            let _ = write!(screen, "\r\x1b[K").and_then(|()| screen.flush());
        }
    }
}

#[cfg(test)]
mod tests {
    use super::*;

    #[test]
    fn told_and_wiped() {
        let mut screen = Vec::new();
        let mut progress = Progress::on(Some(&mut screen), Duration::ZERO);
        progress.tell("reading a", 3 << 20, 10 << 20);
        drop(progress);
        assert_eq!(String::from_utf8(screen).unwrap(), "\r\x1b[Kreading a: 3 of 10 MiB, 30 %\r\x1b[K");
    }

    #[test]
    fn a_stage_is_told_at_once() {
        let mut screen = Vec::new();
        Progress::on(Some(&mut screen), SILENT).stage("turning a", LONG);
        assert_eq!(String::from_utf8(screen).unwrap(), "\r\x1b[Kturning a\r\x1b[K");
    }

    #[test]
    fn short_work_is_silent() {
        let mut screen = Vec::new();
        let mut progress = Progress::on(Some(&mut screen), SILENT);
        progress.tell("reading a", 3 << 20, 0);
        progress.stage("turning a", LONG - 1);
        drop(progress);
        assert_eq!(screen, b"");
    }
}
