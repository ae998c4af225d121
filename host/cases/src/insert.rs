//! One more well-formed unlisted chunk at a top-level boundary, with the FORM
//! length corrected. Such a file has the same mesh, and one more skipped
//! chunk.

use std::ops::Range;

use crate::assemble::{u4, Kind};
use crate::random::Random;
use crate::unlisted::unlisted_chunk;

/// The kind of a file that has a whole head.
pub fn kind_of(file: &[u8]) -> Kind {
    match &file[8..12] {
        b"LWOB" => Kind::Lwob,
        b"LWO2" => Kind::Lwo2,
        other => panic!("no object file: {other:02x?}"),
    }
}

/// The offsets of the top-level chunks of a file whose chunks are well formed,
/// and the file's length at the end.
pub fn boundaries(file: &[u8]) -> Vec<usize> {
    let mut offsets = vec![12];
    let mut at = 12;
    while at < file.len() {
        let bytes: [u8; 4] = file[at + 4..at + 8].try_into().expect("four bytes");
        let length = u32::from_be_bytes(bytes) as usize;
        at += 8 + length + length % 2;
        offsets.push(at);
    }
    assert_eq!(at, file.len(), "the chunks tile the file");
    offsets
}

/// Where the top-level chunks of any file lie, as far as their lengths fit.
pub fn chunk_spans(file: &[u8]) -> Vec<Range<usize>> {
    let mut spans = Vec::new();
    let mut at = 12;
    while let Some(field) = file.get(at + 4..at + 8) {
        let field: [u8; 4] = field.try_into().expect("four bytes");
        let length = u32::from_be_bytes(field) as usize;
        let end = at + 8 + length + length % 2;
        if end > file.len() {
            break;
        }
        spans.push(at..end);
        at = end;
    }
    spans
}

/// The offsets at which a chunk can be put into any file that has a whole
/// head: where the chunks of `chunk_spans` begin and end.
pub fn known_boundaries(file: &[u8]) -> Vec<usize> {
    let ends = chunk_spans(file).into_iter().map(|span| span.end);
    std::iter::once(12).chain(ends).collect()
}

/// The file with these bytes put in at an offset, the FORM length corrected.
pub fn inserted(file: &[u8], at: usize, bytes: &[u8]) -> Vec<u8> {
    let mut longer = Vec::with_capacity(file.len() + bytes.len());
    longer.extend_from_slice(&file[..at]);
    longer.extend_from_slice(bytes);
    longer.extend_from_slice(&file[at..]);
    correct_form_length(&mut longer);
    longer
}

/// The file with one random unlisted chunk put in at an offset.
pub fn with_unlisted(random: &mut Random, file: &[u8], at: usize) -> Vec<u8> {
    let chunk = unlisted_chunk(random, kind_of(file));
    inserted(file, at, &chunk)
}

/// Puts the right FORM length into a file that has room for it.
pub fn correct_form_length(file: &mut [u8]) {
    if file.len() >= 8 {
        let length = u32::try_from(file.len() - 8).expect("a file that fits");
        file[4..8].copy_from_slice(&u4(length));
    }
}

#[cfg(test)]
mod tests {
    use super::*;
    use crate::assemble::{chunk, form, join};

    #[test]
    fn spans_are_the_chunks() {
        let chunks = [chunk(b"TEXT", b"x"), chunk(b"ABCD", b"")];
        let mut file = form(Kind::Lwo2, &join(&chunks));
        assert_eq!(chunk_spans(&file), [12..22, 22..30]);
        assert_eq!(known_boundaries(&file), boundaries(&file));
        file.pop();
        assert_eq!(chunk_spans(&file), vec![12..22; 1]);
        assert_eq!(known_boundaries(&file), [12, 22]);
        assert_eq!(chunk_spans(&file[..9]), []);
    }
}
