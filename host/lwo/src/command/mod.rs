//! What the command does with its words, and how it ends.

mod arguments;
mod boards;
mod canonical;
mod check;
mod chunks;
mod convert;
mod destination;
mod fault;
mod folders;
mod help;
mod identity;
mod input;
mod json;
mod list;
mod many;
mod pipe;
mod progress;
mod reason;
mod rejection;
mod standard;
#[allow(unsafe_code)]
mod system;
mod temporary;
mod whole;

use std::ffi::{OsStr, OsString};
use std::io::{self, Write};
use std::os::unix::ffi::OsStrExt;
use std::process::ExitCode;

use lwo::Escaped;

use arguments::Order;
use reason::Reason;

/// A file was refused, or could not be read or written.
const REFUSED: u8 = 1;

/// The words were not understood.
const NOT_UNDERSTOOD: u8 = 2;

/// The reader of standard output has closed it. A shell gives this status to a program that is
/// ended for that reason (128 and the number of SIGPIPE).
const PIPE_CLOSED: u8 = 141;

/// Whether everything that was asked for went well. What did not was told already.
#[derive(Clone, Copy, Debug, PartialEq, Eq)]
enum Outcome {
    Fine,
    Refused,
}

/// Carries out what the words after the command's name ask for.
pub fn run(words: impl Iterator<Item = OsString>) -> ExitCode {
    match arguments::order(words) {
        Ok(order) => status(carry_out(order)),
        Err(misuse) => {
            tell(&format!("{misuse}; lwo --help tells how it is used"));
            ExitCode::from(NOT_UNDERSTOOD)
        }
    }
}

/// The one error that can come back is that of standard output.
fn carry_out(order: Order) -> io::Result<Outcome> {
    let mut out = standard::standard()?;
    let outcome = match order {
        Order::Help => help::print_help(&mut out)?,
        Order::Version => help::print_version(&mut out)?,
        Order::List { sources, json } => list::list(sources, json, &mut out)?,
        Order::Check { sources, form } => check::check(sources, form, &mut out)?,
        Order::Boards { sources, json } => boards::boards(sources, json, &mut out)?,
        Order::Canonical { from, target } => canonical::canonical(&from, &target, &mut out)?,
    };
    out.flush()?;
    Ok(outcome)
}

fn status(done: io::Result<Outcome>) -> ExitCode {
    match done {
        Ok(Outcome::Fine) => ExitCode::SUCCESS,
        Ok(Outcome::Refused) => ExitCode::from(REFUSED),
        Err(error) if error.kind() == io::ErrorKind::BrokenPipe => ExitCode::from(PIPE_CLOSED),
        Err(error) => {
            tell(&format!("standard output: not written: {}", Reason(&error)));
            ExitCode::from(REFUSED)
        }
    }
}

/// A word or a file's name as it is shown to a person.
fn shown<N: AsRef<OsStr> + ?Sized>(name: &N) -> Escaped<'_> {
    Escaped(name.as_ref().as_bytes())
}

/// Tells a person something on standard error. Where that cannot be written either, there is
/// nobody left to tell; the exit status still says it.
fn tell(message: &str) {
    // One write, so that the lines of several commands do not mix.
    let _ = io::stderr().write_all(format!("lwo: {message}\n").as_bytes());
}
