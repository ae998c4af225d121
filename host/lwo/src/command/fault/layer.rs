//! What a LAYR of LWO2 holds: the number of the layer, flags, a pivot, a name, and the number of a
//! parent or nothing.

use super::expected::Expected;
use super::strings::after_string;
use crate::command::chunks::Chunk;

/// How far behind the body's first byte the name begins.
const NAME: usize = 16;

/// The bytes of a parent's number.
const PARENT: usize = 2;

/// The item that begins so far behind the body's first byte, and the lengths that it can have.
pub fn item(file: &[u8], layer: &Chunk, offset: usize) -> Option<(&'static str, &'static [usize])> {
    match offset {
        0 => Some(("the layer's number", &[2])),
        2 => Some(("the layer's flags", &[2])),
        4 | 8 | 12 => Some((coordinate(offset)?, &[4])),
        // A layer that ends behind its name has no parent, and lacks none.
        _ if offset == after_name(file, layer)? && offset < layer.length() => {
            Some(("nothing, or a parent's number", &[PARENT]))
        }
        _ => None,
    }
}

/// The coordinate of the pivot that begins so far behind the body's first byte.
pub fn coordinate(offset: usize) -> Option<&'static str> {
    match offset {
        4 => Some("the pivot's x"),
        8 => Some("the pivot's y"),
        12 => Some("the pivot's z"),
        _ => None,
    }
}

/// 6: bytes are left over behind the parent.
pub fn body_length(file: &[u8], layer: &Chunk) -> Option<Expected> {
    let without_parent = after_name(file, layer)?;
    let with_parent = without_parent + PARENT;
    (layer.length() > with_parent).then(|| Expected {
        found: format!("a length of {}", layer.length()),
        expected: format!("{without_parent}, or {with_parent} with a parent"),
    })
}

/// How far behind the body's first byte the name has ended.
fn after_name(file: &[u8], layer: &Chunk) -> Option<usize> {
    after_string(file.get(layer.body..layer.end)?, NAME)
}
