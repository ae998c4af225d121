//! A body as its items, so that each item can be cut or given another value.

use crate::assemble::join;

/// What an item is, which says what can be wrong with it.
#[derive(Clone, Copy, Debug, PartialEq, Eq)]
pub enum Role {
    Type,
    Count,
    Vertex,
    FaceSurface,
    PatchSurface,
    DetailSurface,
    DetailCount,
    Polygon,
    Tag,
    Float,
    Envelope,
    Number,
}

/// One item of a body.
#[derive(Clone)]
pub struct Item {
    pub role: Role,
    bytes: Vec<u8>,
    /// Whether the body may end before it.
    optional: bool,
}

/// A good body.
#[derive(Clone, Default)]
pub struct Body {
    pub items: Vec<Item>,
}

impl Body {
    /// The body with one more item, which must follow the one before.
    pub fn then(self, role: Role, bytes: Vec<u8>) -> Body {
        self.push(role, bytes, false)
    }

    /// The body with one more item, before which the body may end.
    pub fn start(self, role: Role, bytes: Vec<u8>) -> Body {
        self.push(role, bytes, true)
    }

    fn push(mut self, role: Role, bytes: Vec<u8>, optional: bool) -> Body {
        self.items.push(Item {
            role,
            bytes,
            optional,
        });
        self
    }

    pub fn bytes(&self) -> Vec<u8> {
        let pieces: Vec<&[u8]> = self.items.iter().map(|item| &item.bytes[..]).collect();
        join(&pieces)
    }

    /// Where the item of this number begins.
    pub fn offset(&self, number: usize) -> usize {
        self.items[..number]
            .iter()
            .map(|item| item.bytes.len())
            .sum()
    }

    /// The body with another value for one item; the items after it stay.
    pub fn with(mut self, number: usize, bytes: &[u8]) -> Body {
        self.items[number].bytes = bytes.to_vec();
        self
    }

    /// The bytes of that body.
    pub fn replaced(&self, number: usize, bytes: &[u8]) -> Vec<u8> {
        self.clone().with(number, bytes).bytes()
    }

    /// The numbers of the items of a role.
    pub fn of_role(&self, role: Role) -> Vec<usize> {
        let numbers = 0..self.items.len();
        numbers.filter(|&n| self.items[n].role == role).collect()
    }

    /// Every way to cut an item by the body's end: its number, how many bytes
    /// of it are there, and the bytes of the body.
    pub fn cuts(&self) -> Vec<(usize, usize, Vec<u8>)> {
        let mut cuts = Vec::new();
        for (number, item) in self.items.iter().enumerate() {
            let fewest = usize::from(item.optional);
            for there in fewest..item.bytes.len() {
                let end = self.offset(number) + there;
                cuts.push((number, there, self.bytes()[..end].to_vec()));
            }
        }
        cuts
    }
}
