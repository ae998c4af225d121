//! Where a result goes: the one place where a command writes what it made.

use std::fmt;
use std::io::{self, Write};
use std::path::PathBuf;

use super::identity::Identity;
use super::standard::Standard;
use super::whole::{self, NotWritten};
use super::{shown, tell, Outcome};

/// Where a result goes.
#[derive(Debug, PartialEq, Eq)]
pub enum Destination {
    Standard,
    File(PathBuf),
}

impl fmt::Display for Destination {
    fn fmt(&self, f: &mut fmt::Formatter<'_>) -> fmt::Result {
        match self {
            Destination::Standard => f.write_str("standard output"),
            Destination::File(path) => shown(path).fmt(f),
        }
    }
}

/// Where a result goes, and what it may take the place of.
#[derive(Debug, PartialEq, Eq)]
pub struct Target {
    pub to: Destination,
    /// Whether it may be written over a file that is there, or to a terminal.
    pub force: bool,
}

impl Target {
    /// Writes a result that was made from these inputs, or tells why it is not written.
    pub fn write(
        &self,
        bytes: &[u8],
        inputs: &[Identity],
        out: &mut Standard,
    ) -> io::Result<Outcome> {
        let to = &self.to;
        match to {
            Destination::File(path) => match whole::write(path, bytes, inputs, self.force) {
                Ok(()) => return Ok(Outcome::Fine),
                Err(reason) => tell(&format!("{to}: {reason}")),
            },
            Destination::Standard if out.get_ref().is_terminal() && !self.force => {
                tell(&format!(
                    "{to}: not written: it is a terminal; --force writes to it"
                ));
            }
            // It may have been opened on an input itself, as by `>>`.
            Destination::Standard if is_one_of(out.get_ref().identity()?, inputs) => {
                tell(&format!("{to}: {}", NotWritten::IsTheInput));
            }
            Destination::Standard => {
                out.write_all(bytes)?;
                return Ok(Outcome::Fine);
            }
        }
        Ok(Outcome::Refused)
    }
}

fn is_one_of(identity: Option<Identity>, inputs: &[Identity]) -> bool {
    identity.is_some_and(|identity| inputs.contains(&identity))
}
