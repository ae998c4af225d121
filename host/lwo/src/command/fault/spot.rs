//! The place of a refusal, with the bytes there.

use lwo::{Escaped, Refusal};

use crate::command::chunks::{chunks, kind, Chunk};

/// The bytes of a file at the place of a refusal. What is read here may be missing in any file
/// that the refusal does not fit, so everything may be None.
#[derive(Clone, Copy)]
pub struct Spot<'a> {
    pub file: &'a [u8],
    pub place: usize,
    /// The chunks that the place lies in, from the top-level one to the innermost.
    pub holders: &'a [Chunk],
}

impl<'a> Spot<'a> {
    pub fn new(file: &'a [u8], refusal: &Refusal, holders: &'a [Chunk]) -> Option<Spot<'a>> {
        let place = usize::try_from(refusal.place).ok()?;
        Some(Spot {
            file,
            place,
            holders,
        })
    }

    /// The type of the file, and the tags of the chunks that the place lies in.
    pub fn tags(&self) -> (&'a [u8], Vec<&'a [u8; 4]>) {
        let tags = self.holders.iter().map(|chunk| &chunk.tag);
        (kind(self.file), tags.collect())
    }

    pub fn innermost(&self) -> Option<&'a Chunk> {
        self.holders.last()
    }

    /// The chunk that begins at the place, so that its own header is at fault.
    pub fn own(&self) -> Option<&'a Chunk> {
        self.innermost().filter(|chunk| chunk.start == self.place)
    }

    /// The body of the innermost chunk.
    pub fn body(&self) -> Option<&'a [u8]> {
        let chunk = self.innermost()?;
        self.file.get(chunk.body..chunk.end)
    }

    /// How far the place lies behind the first byte of the innermost chunk's body.
    pub fn offset(&self) -> Option<usize> {
        self.place.checked_sub(self.innermost()?.body)
    }

    /// The bytes from the place to the end of the innermost chunk's body.
    pub fn rest(&self) -> Option<&'a [u8]> {
        self.file.get(self.place..self.innermost()?.end)
    }

    /// The first bytes there, whole.
    pub fn bytes<const N: usize>(&self) -> Option<[u8; N]> {
        self.rest()?.first_chunk().copied()
    }

    pub fn u2(&self) -> Option<u16> {
        self.bytes().map(u16::from_be_bytes)
    }

    pub fn i2(&self) -> Option<i16> {
        self.bytes().map(i16::from_be_bytes)
    }

    /// An index in two bytes, or in four where the first one is 255.
    pub fn vx(&self) -> Option<u32> {
        match self.rest()? {
            [255, high, middle, low, ..] => Some(u32::from_be_bytes([0, *high, *middle, *low])),
            [255, ..] => None,
            _ => self.u2().map(u32::from),
        }
    }

    /// As in `the end of DIFF`.
    pub fn end_of_innermost(&self) -> Option<String> {
        let tag = self.innermost()?.tag;
        Some(format!("the end of {}", Escaped(&tag)))
    }

    /// The top-level chunks with a tag that come before the one at fault.
    pub fn earlier(&self, tag: &'a [u8; 4]) -> impl Iterator<Item = Chunk> + 'a {
        let before = self.holders.first().map_or(0, |chunk| chunk.start);
        chunks(self.file)
            .take_while(move |chunk| chunk.start < before)
            .filter(move |chunk| chunk.tag == *tag)
    }

    /// The same, but only those that are in the layer of the chunk at fault.
    pub fn earlier_in_layer(&self, tag: &'a [u8; 4]) -> impl Iterator<Item = Chunk> + 'a {
        let from = self.layer().map_or(0, |layer| layer.end);
        self.earlier(tag).filter(move |chunk| chunk.start >= from)
    }

    /// The LAYR that begins the layer of the chunk at fault, if there is one; LWOB has no layers.
    pub fn layer(&self) -> Option<Chunk> {
        match kind(self.file) {
            b"LWO2" => self.earlier(b"LAYR").last(),
            _ => None,
        }
    }
}
