//! Which chunks a place lies in.

use lwo::{Refusal, RefusalKind};

use super::strings::after_string;
use crate::command::chunks::{chunks, kind, sub_chunks, Chunk};

/// The chunks that the place of a refusal lies in, from the top-level one to the innermost.
pub fn holders(file: &[u8], refusal: &Refusal) -> Vec<Chunk> {
    let Ok(place) = usize::try_from(refusal.place) else {
        return Vec::new();
    };
    let Some(holds) = rule(refusal.kind, place) else {
        return Vec::new();
    };
    let mut list: Vec<Chunk> = chunks(file).find(&holds).into_iter().collect();
    while let Some(chunk) = list.last() {
        let bytes = file.get(..chunk.end).unwrap_or(file);
        let first = first_sub_chunk(bytes, &list);
        match first.and_then(|first| sub_chunks(bytes, first).find(&holds)) {
            Some(sub_chunk) => list.push(sub_chunk),
            None => break,
        }
    }
    list
}

/// Whether the place lies in a chunk; None where the number's place is no byte of the file.
///
/// An item or string that is missing altogether has its place where its chunk's body ends, which
/// may be where the next chunk begins; but no item or string begins at a tag. So the number says
/// which of the two chunks is meant.
fn rule(kind: RefusalKind, place: usize) -> Option<impl Fn(&Chunk) -> bool> {
    let missing = matches!(kind, RefusalKind::ItemCut | RefusalKind::StringOpen);
    let in_file = missing || matches!(kind.number(), 4..=15 | 22);
    let holds = move |chunk: &Chunk| match missing {
        true => (chunk.body..=chunk.end).contains(&place),
        false => (chunk.start..chunk.end).contains(&place),
    };
    in_file.then_some(holds)
}

/// The offset of the first sub-chunk in the innermost of these chunks, if it holds any. The bytes
/// are those of the file up to its end.
fn first_sub_chunk(bytes: &[u8], list: &[Chunk]) -> Option<usize> {
    let strings = strings_before(kind(bytes), list)?;
    let body = list.last()?.body;
    (0..strings).try_fold(body, |from, _| after_string(bytes, from))
}

/// How many strings stand before the sub-chunks of the innermost of these chunks; None where no
/// sub-chunks are read in it.
fn strings_before(kind: &[u8], list: &[Chunk]) -> Option<usize> {
    let tags: Vec<&[u8; 4]> = list.iter().map(|chunk| &chunk.tag).collect();
    match (kind, &tags[..]) {
        (b"LWOB", [b"SURF"]) => Some(1),
        (b"LWO2", [b"SURF"]) => Some(2),
        (b"LWO2", [b"SURF", b"BLOK"]) => Some(0),
        (b"LWO2", [b"SURF", b"BLOK", b"TMAP"]) => Some(0),
        (b"LWO2", [b"SURF", b"BLOK", b"IMAP" | b"PROC" | b"GRAD" | b"SHDR"]) => Some(1),
        _ => None,
    }
}
