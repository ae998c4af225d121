//! Why a file or a mesh is refused.

use std::error::Error;
use std::fmt;

use crate::refusal_kind::RefusalKind;

/// The number of a file that is accepted, or a mesh that is written.
pub(crate) const ACCEPTED: u64 = 0;

/// A file that the rules do not accept, or a mesh that cannot be written.
///
/// ```
/// use lwo::{Refusal, RefusalKind};
///
/// // The vertex at fault begins at byte 120 of the file.
/// let refusal = Refusal::new(RefusalKind::VertexNumber, 120);
/// assert_eq!(refusal.number(), 9);
/// assert_eq!(
///     refusal.to_string(),
///     "refused 9 at 120: a polygon names a point that the latest point list does not have",
/// );
/// ```
#[derive(Clone, Copy, Debug, PartialEq, Eq, Hash)]
#[non_exhaustive]
pub struct Refusal {
    /// What is wrong.
    pub kind: RefusalKind,
    /// The offset in the file of the first byte of the header, item or string at fault. Where that
    /// is missing altogether, the offset at which it would begin, which may be the file's length.
    /// 0 where no byte is at fault: on the numbers 1, 2, 3, 16, 17 and 18.
    pub place: u64,
}

impl Refusal {
    /// The refusal of this kind at this place.
    pub const fn new(kind: RefusalKind, place: u64) -> Refusal {
        Refusal { kind, place }
    }

    /// The refusal that the library answered; None if it accepted.
    pub(crate) fn answered(number: u64, place: u64) -> Option<Refusal> {
        if number == ACCEPTED {
            return None;
        }
        let kind = RefusalKind::from_number(number);
        let kind = kind.unwrap_or_else(|| unreachable!("the library has no number {number}"));
        Some(Refusal::new(kind, place))
    }

    /// The number in the table of refusals.
    pub fn number(&self) -> u64 {
        self.kind.number()
    }

    /// What the number means, as a sentence without a full stop.
    pub fn sentence(&self) -> &'static str {
        self.kind.sentence()
    }
}

impl fmt::Display for Refusal {
    fn fmt(&self, f: &mut fmt::Formatter<'_>) -> fmt::Result {
        let (number, place) = (self.number(), self.place);
        write!(f, "refused {number} at {place}: {}", self.sentence())
    }
}

impl Error for Refusal {}
