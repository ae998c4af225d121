//! What is told of a refusal beside its number and place: the chunks that the place lies in, and
//! what stands there against what the rules ask for. The library has judged the file, so nothing
//! is judged again here: headers lead to the place, and the bytes there say what is wrong.

mod expected;
mod headers;
mod holders;
mod items;
mod layer;
mod spot;
mod strings;
#[cfg(test)]
mod tests;

use std::fmt;

use lwo::{Escaped, Refusal};

use super::chunks::Chunk;
pub use expected::Expected;
use spot::Spot;

/// A refusal, and what the file has at its place.
pub struct Fault {
    pub refusal: Refusal,
    /// The chunks that the place lies in, from the top-level one to the innermost. There are none
    /// where no chunk is at fault, or the one at fault has no whole header.
    pub holders: Vec<Chunk>,
    /// None where the bytes do not say it plainly.
    pub expected: Option<Expected>,
}

impl Fault {
    pub fn of(refusal: Refusal, file: &[u8]) -> Fault {
        let holders = holders::holders(file, &refusal);
        let spot = Spot::new(file, &refusal, &holders);
        let expected = spot.and_then(|spot| expected::expected(refusal.kind, &spot));
        Fault {
            refusal,
            holders,
            expected,
        }
    }
}

/// The refusal as the crate tells it, with the chunks beside its place, and what was found there.
impl fmt::Display for Fault {
    fn fmt(&self, f: &mut fmt::Formatter<'_>) -> fmt::Result {
        write!(
            f,
            "refused {} at {}",
            self.refusal.number(),
            self.refusal.place
        )?;
        if !self.holders.is_empty() {
            // The innermost comes first, as in `DIFF at 208 of SURF at 170`.
            let words = self.holders.iter().rev().map(named);
            write!(f, " ({})", words.collect::<Vec<String>>().join(" of "))?;
        }
        write!(f, ": {}", self.refusal.sentence())?;
        match &self.expected {
            Some(expected) => write!(f, "; {expected}"),
            None => Ok(()),
        }
    }
}

/// As in `POLS at 68`.
fn named(chunk: &Chunk) -> String {
    format!("{} at {}", Escaped(&chunk.tag), chunk.start)
}
