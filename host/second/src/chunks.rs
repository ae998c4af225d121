//! Chunks and sub-chunks: "A chunk is a tag, a U4 length, the body, and a zero
//! pad byte if the length is odd. ... A sub-chunk has a U2 length."
//!
//! "A chunk's tag, length and pad are judged together (4)". Nothing here looks
//! at a body.

use crate::items::Cursor;
use crate::refusal::{Fault, Flaw};

/// A well-formed chunk or sub-chunk.
#[derive(Clone, Copy, Debug)]
pub struct Chunk {
    pub tag: [u8; 4],
    /// The offset of its tag.
    pub at: usize,
    /// The offset of its body's first byte.
    pub body: usize,
    /// The offset at which its body ends.
    pub end: usize,
    /// The offset after its pad byte, if any: that of the next chunk.
    pub next: usize,
}

impl Chunk {
    /// How long its body is.
    pub fn length(&self) -> usize {
        self.end - self.body
    }

    /// A cursor over its body.
    pub fn cursor<'a>(&self, file: &'a [u8]) -> Cursor<'a> {
        Cursor::new(file, self.body, self.end)
    }

    /// A fault of this chunk's own header.
    pub fn flaw(&self, fault: Fault) -> Flaw {
        Flaw::new(fault, self.at)
    }
}

/// The chunk at `at`, whose parent ends at `end`.
pub fn chunk(file: &[u8], at: usize, end: usize) -> Result<Chunk, Flaw> {
    let (tag, length) = header::<4>(file, at, end)?;
    well_formed(file, at, end, tag, u32::from_be_bytes(length) as usize, 8)
}

/// The sub-chunk at `at`, whose parent ends at `end`.
pub fn sub_chunk(file: &[u8], at: usize, end: usize) -> Result<Chunk, Flaw> {
    let (tag, length) = header::<2>(file, at, end)?;
    well_formed(file, at, end, tag, u16::from_be_bytes(length) as usize, 6)
}

/// The four bytes of a tag and the `N` bytes of a length.
fn header<const N: usize>(file: &[u8], at: usize, end: usize) -> Result<([u8; 4], [u8; N]), Flaw> {
    let cut = Flaw::new(Fault::HeaderCut, at);
    let (tag, rest) = file[at..end].split_first_chunk::<4>().ok_or(cut)?;
    let length = rest.first_chunk::<N>().ok_or(cut)?;
    Ok((*tag, *length))
}

fn well_formed(
    file: &[u8],
    at: usize,
    parent_end: usize,
    tag: [u8; 4],
    length: usize,
    header_length: usize,
) -> Result<Chunk, Flaw> {
    if !tag.iter().all(|byte| (32..=126).contains(byte)) {
        return Err(Flaw::new(Fault::TagByte, at));
    }
    let body = at + header_length;
    if length > parent_end - body {
        return Err(Flaw::new(Fault::LengthPastEnd, at));
    }
    let end = body + length;
    let mut next = end;
    if length % 2 == 1 {
        if end == parent_end {
            return Err(Flaw::new(Fault::PadMissing, at));
        }
        if file[end] != 0 {
            return Err(Flaw::new(Fault::PadNotZero, at));
        }
        next += 1;
    }
    Ok(Chunk {
        tag,
        at,
        body,
        end,
        next,
    })
}

/// The sub-chunks that tile the rest of a body, first to last. The walk stops
/// after the first that is not well formed.
pub struct SubChunks<'a> {
    file: &'a [u8],
    at: usize,
    end: usize,
}

/// The sub-chunks from the cursor's place to its end.
pub fn sub_chunks<'a>(file: &'a [u8], rest: &Cursor<'a>) -> SubChunks<'a> {
    SubChunks {
        file,
        at: rest.at(),
        end: rest.end(),
    }
}

impl Iterator for SubChunks<'_> {
    type Item = Result<Chunk, Flaw>;

    fn next(&mut self) -> Option<Result<Chunk, Flaw>> {
        if self.at >= self.end {
            return None;
        }
        let found = sub_chunk(self.file, self.at, self.end);
        self.at = match &found {
            Ok(sub) => sub.next,
            Err(_) => self.end,
        };
        Some(found)
    }
}
