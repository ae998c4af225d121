//! Reading a named pipe, which may have nobody who writes to it.

use std::fs::{File, OpenOptions};
use std::io::{self, ErrorKind, Read};
use std::os::unix::fs::OpenOptionsExt;
use std::path::Path;
use std::thread::sleep;
use std::time::{Duration, Instant};

/// The flag of Linux by which opening and reading a pipe do not wait.
const DO_NOT_WAIT: i32 = 0o4000;

/// How long a pipe may have no writer before it is given up.
const FOR_A_WRITER: Duration = Duration::from_secs(2);

const BETWEEN_LOOKS: Duration = Duration::from_millis(1);

/// The bytes of a named pipe, up to a limit; None where nobody began to write to it.
pub fn read(path: &Path, limit: u64) -> io::Result<Option<Vec<u8>>> {
    let file = OpenOptions::new()
        .read(true)
        .custom_flags(DO_NOT_WAIT)
        .open(path)?;
    let mut pipe = Waiting(file);
    let mut first = [0];
    let start = Instant::now();
    while pipe.read(&mut first)? == 0 {
        if start.elapsed() > FOR_A_WRITER {
            return Ok(None);
        }
        sleep(BETWEEN_LOOKS);
    }
    let mut bytes = first.to_vec();
    pipe.take(limit - 1).read_to_end(&mut bytes)?;
    Ok(Some(bytes))
}

/// A pipe whose reading waits while a writer is there and has not written yet.
struct Waiting(File);

impl Read for Waiting {
    fn read(&mut self, bytes: &mut [u8]) -> io::Result<usize> {
        loop {
            match self.0.read(bytes) {
                Err(error) if error.kind() == ErrorKind::WouldBlock => sleep(BETWEEN_LOOKS),
                done => return done,
            }
        }
    }
}
