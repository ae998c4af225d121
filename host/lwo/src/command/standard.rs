//! Standard output, which may be closed, full, a terminal or the input itself.

use std::fs::File;
use std::io::{self, BufWriter, IsTerminal, Write};
use std::os::fd::AsFd;

use super::identity::Identity;
use super::reason::not_open;
use super::system::standard_output_is_writable;

/// Standard output, written in large pieces.
pub type Standard = BufWriter<Stream>;

/// Standard output without the standard library's own stream, which takes every byte for written
/// where it is closed; None where it is.
pub struct Stream(Option<File>);

pub fn standard() -> io::Result<Standard> {
    let stream = match standard_output_is_writable() {
        true => Some(File::from(io::stdout().as_fd().try_clone_to_owned()?)),
        false => None,
    };
    Ok(BufWriter::with_capacity(1 << 16, Stream(stream)))
}

impl Stream {
    pub fn is_terminal(&self) -> bool {
        self.0.as_ref().is_some_and(IsTerminal::is_terminal)
    }

    /// The identity of the plain file that it stands for, as in `lwo canonical IN - >> IN`.
    pub fn identity(&self) -> io::Result<Option<Identity>> {
        match &self.0 {
            Some(file) => Ok(Identity::of(&file.metadata()?)),
            None => Ok(None),
        }
    }

    fn file(&mut self) -> io::Result<&mut File> {
        self.0.as_mut().ok_or_else(not_open)
    }
}

impl Write for Stream {
    fn write(&mut self, bytes: &[u8]) -> io::Result<usize> {
        self.file()?.write(bytes)
    }

    fn flush(&mut self) -> io::Result<()> {
        match &mut self.0 {
            Some(file) => file.flush(),
            None => Ok(()),
        }
    }
}
