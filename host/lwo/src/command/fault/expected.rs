//! What stands at the place of a refusal, and what the rules ask for there.

use std::fmt;

use lwo::RefusalKind as K;

use super::spot::Spot;
use super::{headers, items, strings};

/// Both in words, as in `found point 3, expected 0 to 2`. Bytes are in hexadecimal digits, other
/// numbers in decimal ones.
#[derive(Clone, Debug, PartialEq, Eq)]
pub struct Expected {
    pub found: String,
    pub expected: String,
}

impl fmt::Display for Expected {
    fn fmt(&self, f: &mut fmt::Formatter<'_>) -> fmt::Result {
        write!(f, "found {}, expected {}", self.found, self.expected)
    }
}

/// None where what is found is not against the rules, or is not plain: nothing is guessed.
pub fn expected(kind: K, spot: &Spot) -> Option<Expected> {
    match kind {
        K::NotAnObject => headers::not_an_object(spot.file),
        K::FormLength => headers::form_length(spot.file),
        K::Chunk => headers::header(spot),
        K::Order => headers::order(spot),
        K::Body => headers::body_length(spot),
        K::NotFinite => items::not_finite(spot),
        K::VertexCount => items::vertex_count(spot),
        K::VertexNumber => items::vertex_number(spot),
        K::Surface => items::surface(spot),
        K::PolygonNumber => items::polygon_number(spot),
        K::PolygonType => items::polygon_type(spot),
        K::Name => strings::name(spot),
        K::Detail => items::surface_above_zero(spot),
        K::SideOrBlock => items::side(spot).or_else(|| headers::block(spot)),
        K::ItemCut => items::cut(spot),
        K::StringOpen => strings::open_string(spot),
        K::LongIndex => items::long_index(spot),
        _ => None,
    }
}
