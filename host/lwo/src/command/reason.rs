//! Why reading or writing failed, in words for a person.

use std::fmt;
use std::io::{Error, ErrorKind};

/// The system's number for a descriptor that is closed or not open for this.
const BAD_DESCRIPTOR: i32 = 9;

/// The failure to read or write a stream that is not open for that.
pub fn not_open() -> Error {
    Error::from_raw_os_error(BAD_DESCRIPTOR)
}

/// A failure in plain words where there are any, else as the system tells it.
pub struct Reason<'a>(pub &'a Error);

impl fmt::Display for Reason<'_> {
    fn fmt(&self, f: &mut fmt::Formatter<'_>) -> fmt::Result {
        match self.0.kind() {
            ErrorKind::StorageFull | ErrorKind::QuotaExceeded => {
                f.write_str("there is no space left")
            }
            ErrorKind::ReadOnlyFilesystem => f.write_str("the disk can only be read"),
            ErrorKind::NotADirectory => f.write_str("a part of its name is a file and no folder"),
            _ if self.0.raw_os_error() == Some(BAD_DESCRIPTOR) => {
                f.write_str("it is closed, or not open for this")
            }
            _ => self.0.fmt(f),
        }
    }
}
