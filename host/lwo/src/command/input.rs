//! Reading a whole file, up to the longest that the library reads.

use std::fmt;
use std::fs::{self, File};
use std::io::{self, ErrorKind, Read};
use std::os::unix::fs::FileTypeExt;
use std::path::{Path, PathBuf};

use super::identity::Identity;
use super::pipe;
use super::reason::{not_open, Reason};
use super::shown;
use super::system::standard_input_is_readable;

/// One byte past the longest file: that is enough for the library to answer that a file is too
/// long, and a source without an end is not read for ever.
const MOST: usize = lwo::FILE_LIMIT + 1;

/// Where a file is read from.
#[derive(Debug, PartialEq, Eq)]
pub enum Source {
    Standard,
    File(PathBuf),
}

impl fmt::Display for Source {
    fn fmt(&self, f: &mut fmt::Formatter<'_>) -> fmt::Result {
        match self {
            Source::Standard => f.write_str("standard input"),
            Source::File(path) => shown(path).fmt(f),
        }
    }
}

/// A file's bytes, and which file it was.
pub struct Input {
    pub bytes: Vec<u8>,
    pub identity: Option<Identity>,
}

/// Why a file could not be read.
#[derive(Debug)]
pub enum NotRead {
    NoName,
    Folder,
    NoObjects,
    NoWriter,
    Failed(io::Error),
}

impl From<io::Error> for NotRead {
    fn from(error: io::Error) -> NotRead {
        match error.kind() {
            ErrorKind::IsADirectory => NotRead::Folder,
            _ => NotRead::Failed(error),
        }
    }
}

impl fmt::Display for NotRead {
    fn fmt(&self, f: &mut fmt::Formatter<'_>) -> fmt::Result {
        f.write_str(match self {
            NotRead::NoName => "its name is empty",
            NotRead::Folder => "it is a folder",
            NotRead::NoObjects => "there is no .lwo file in this folder",
            NotRead::NoWriter => "it is a pipe that nobody writes to",
            NotRead::Failed(error) => match error.kind() {
                ErrorKind::NotFound => "there is no such file",
                ErrorKind::PermissionDenied => "there is no permission to read it",
                _ => return Reason(error).fmt(f),
            },
        })
    }
}

/// Reads a file to its end, or to one byte past the limit.
pub fn read(source: &Source) -> Result<Input, NotRead> {
    match source {
        Source::Standard => {
            if !standard_input_is_readable() {
                return Err(not_open().into());
            }
            let input = io::stdin();
            let identity = Identity::of_stream(&input)?;
            let bytes = read_limited(input.lock(), 0)?;
            Ok(Input { bytes, identity })
        }
        Source::File(path) => read_file(path),
    }
}

fn read_file(path: &Path) -> Result<Input, NotRead> {
    if path.as_os_str().is_empty() {
        return Err(NotRead::NoName);
    }
    // To open a pipe would wait for a writer, so it is known before.
    if fs::metadata(path)?.file_type().is_fifo() {
        let bytes = pipe::read(path, MOST as u64)?.ok_or(NotRead::NoWriter)?;
        return Ok(Input {
            bytes,
            identity: None,
        });
    }
    let file = File::open(path)?;
    let metadata = file.metadata()?;
    Ok(Input {
        bytes: read_limited(file, metadata.len())?,
        identity: Identity::of(&metadata),
    })
}

/// Reads with room for the expected length from the start, so that a plain file is read in one
/// go.
fn read_limited(input: impl Read, expected: u64) -> io::Result<Vec<u8>> {
    let room = usize::try_from(expected).map_or(MOST, |length| MOST.min(length.saturating_add(1)));
    let mut bytes = Vec::with_capacity(room);
    input.take(MOST as u64).read_to_end(&mut bytes)?;
    Ok(bytes)
}

#[cfg(test)]
mod tests {
    use super::*;

    #[test]
    fn a_source_without_an_end_is_read_to_one_byte_past_the_limit() {
        let bytes = read_limited(io::repeat(0), u64::MAX).expect("bytes that are there");
        assert_eq!(bytes.len(), 16_777_217);
    }

    #[test]
    fn a_source_longer_than_expected_is_read_whole() {
        let bytes = read_limited(&b"FORM"[..], 2).expect("bytes that are there");
        assert_eq!(bytes, b"FORM");
    }
}
