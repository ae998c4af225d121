//! Why a file has no mesh for us, told alike by every command.

use std::fmt;

use lwo::Refusal;

use super::fault::Fault;
use super::input::NotRead;

pub enum Rejection {
    Refused(Fault),
    NotRead(NotRead),
}

impl Rejection {
    pub fn refused(refusal: Refusal, file: &[u8]) -> Rejection {
        Rejection::Refused(Fault::of(refusal, file))
    }
}

impl fmt::Display for Rejection {
    fn fmt(&self, f: &mut fmt::Formatter<'_>) -> fmt::Result {
        match self {
            Rejection::NotRead(reason) => write!(f, "not read: {reason}"),
            Rejection::Refused(fault) => fault.fmt(f),
        }
    }
}
