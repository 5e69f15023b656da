//! How the command ends: its exit status, and the message of a failure.

use std::ffi::OsStr;
use std::io;

/// The exit statuses, the worse the greater.
#[derive(Clone, Copy, Debug, PartialEq, Eq, PartialOrd, Ord)]
pub enum Status {
    Well = 0,
    Refused = 1,
    BadUsage = 2,
    Unreadable = 3,
    /// As other commands that SIGPIPE ends.
    Unread = 141,
}

impl Status {
    pub fn number(self) -> u8 {
        self as u8
    }
}

/// Why the command cannot go on.
#[derive(Debug)]
pub enum Failure {
    /// The library's error, or an array that the asked format cannot hold.
    Refused(String),
    BadUsage(String),
    Unreadable(String),
    Unread,
}

impl Failure {
    pub fn refused(file: &OsStr, why: impl std::fmt::Display) -> Failure {
        Failure::Refused(format!("{}: {why}", file.to_string_lossy()))
    }

    pub fn unreadable(file: &OsStr, why: &io::Error) -> Failure {
        Failure::Unreadable(format!("{}: {why}", file.to_string_lossy()))
    }

    pub fn status(&self) -> Status {
        match self {
            Failure::Refused(_) => Status::Refused,
            Failure::BadUsage(_) => Status::BadUsage,
            Failure::Unreadable(_) => Status::Unreadable,
            Failure::Unread => Status::Unread,
        }
    }

    /// Says it on standard error; a reader who has gone needs no message.
    pub fn tell(&self) {
        match self {
            Failure::Refused(why) | Failure::Unreadable(why) => eprintln!("edf: {why}"),
            Failure::BadUsage(why) => eprintln!("edf: {why}\nTry: edf --help"),
            Failure::Unread => (),
        }
    }
}
