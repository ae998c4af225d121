//! Where the indices (VX) of a valid LWO2 file stand, and that file with some of
//! them in the long form, as request #107's exporter writes them.

use std::ops::Range;

use crate::assemble::{u2, u4, vx_long, Tag};
use crate::insert::{boundaries, correct_form_length};

/// An index of a file.
#[derive(Clone, Copy, Debug, PartialEq, Eq)]
pub struct Index {
    /// The offset of its first byte.
    pub at: usize,
    /// The offset of its top-level chunk.
    pub chunk: usize,
    /// The offset of the sub-chunk that it is the envelope of.
    pub sub: Option<usize>,
}

/// All indices of a valid LWO2 file, in file order: vertices, polygon numbers
/// and envelopes.
pub fn indices(file: &[u8]) -> Vec<Index> {
    let mut list = Vec::new();
    for ends in boundaries(file).windows(2) {
        let chunk = ends[0];
        let body = chunk + 8..chunk + 8 + word(file, chunk + 4);
        match &tag(file, chunk) {
            b"POLS" => add_vertices(file, chunk, body, &mut list),
            b"PTAG" => add_polygons(file, chunk, body, &mut list),
            b"SURF" => add_envelopes(file, chunk, body, &mut list),
            _ => {}
        }
    }
    list
}

/// "POLS: type, then entries: U2 with the count in its low ten bits (high six
/// not judged), then VX vertices into the latest PNTS."
fn add_vertices(file: &[u8], chunk: usize, body: Range<usize>, list: &mut Vec<Index>) {
    let mut at = body.start + 4;
    while at < body.end {
        let count = half(file, at) & 0x03ff;
        at += 2;
        for _ in 0..count {
            list.push(top_level(chunk, at));
            at += size(file, at);
        }
    }
}

/// "Type SURF: pairs of polygon (VX) and tag (U2, from 0) into the latest POLS
/// and the TAGS so far." #111: "PART pairs are read like SURF pairs".
fn add_polygons(file: &[u8], chunk: usize, body: Range<usize>, list: &mut Vec<Index>) {
    if !matches!(&tag(file, body.start), b"SURF" | b"PART") {
        return;
    }
    let mut at = body.start + 4;
    while at < body.end {
        list.push(top_level(chunk, at));
        at += size(file, at) + 2;
    }
}

/// "COLR: three floats and a VX. DIFF, LUMI, SPEC, REFL, TRAN: float and VX."
fn add_envelopes(file: &[u8], chunk: usize, body: Range<usize>, list: &mut Vec<Index>) {
    let mut sub = after_string(file, after_string(file, body.start));
    while sub < body.end {
        let floats = match &tag(file, sub) {
            b"COLR" => 3,
            b"DIFF" | b"LUMI" | b"SPEC" | b"REFL" | b"TRAN" => 1,
            _ => 0,
        };
        if floats > 0 {
            list.push(Index {
                at: sub + 6 + 4 * floats,
                chunk,
                sub: Some(sub),
            });
        }
        sub += 6 + half(file, sub + 4).next_multiple_of(2);
    }
}

fn top_level(chunk: usize, at: usize) -> Index {
    Index {
        at,
        chunk,
        sub: None,
    }
}

/// How many bytes the index at an offset has.
fn size(file: &[u8], at: usize) -> usize {
    if file[at] == 255 {
        4
    } else {
        2
    }
}

/// Whether an index has the short form.
pub fn is_short(file: &[u8], index: &Index) -> bool {
    size(file, index.at) == 2
}

/// The file with an index that has the short form in the long one: the lengths
/// of what it lies in, and the FORM's, grow by two.
pub fn lengthened(file: &[u8], index: &Index) -> Vec<u8> {
    assert!(is_short(file, index), "it is long already");
    let mut longer = file.to_vec();
    let long = vx_long(half(file, index.at) as u32);
    longer.splice(index.at..index.at + 2, long);
    let length = u4(word(file, index.chunk + 4) as u32 + 2);
    longer[index.chunk + 4..index.chunk + 8].copy_from_slice(&length);
    if let Some(sub) = index.sub {
        let length = u2(half(file, sub + 4) as u16 + 2);
        longer[sub + 4..sub + 6].copy_from_slice(&length);
    }
    correct_form_length(&mut longer);
    longer
}

/// The file with every index in the long form. "One exporter writes every index
/// in four bytes".
pub fn all_lengthened(file: &[u8]) -> Vec<u8> {
    let mut longer = file.to_vec();
    // The last first: what lies before it stays where it is.
    for index in indices(file).iter().rev() {
        if is_short(&longer, index) {
            longer = lengthened(&longer, index);
        }
    }
    longer
}

fn tag(file: &[u8], at: usize) -> Tag {
    file[at..at + 4].try_into().expect("four bytes")
}

fn half(file: &[u8], at: usize) -> usize {
    usize::from(u16::from_be_bytes([file[at], file[at + 1]]))
}

fn word(file: &[u8], at: usize) -> usize {
    u32::from_be_bytes(tag(file, at)) as usize
}

/// Where a string ends, its pad included.
fn after_string(file: &[u8], at: usize) -> usize {
    let zero = file[at..].iter().position(|&byte| byte == 0);
    at + (zero.expect("a terminator") + 1).next_multiple_of(2)
}

#[cfg(test)]
mod tests {
    use super::*;
    use crate::samples::samples;

    fn sample(name: &str) -> Vec<u8> {
        let mut list = samples().into_iter();
        let found = list.find(|(other, _)| *other == name);
        found.expect(name).1
    }

    /// Case l has three vertices and one polygon number.
    #[test]
    fn those_of_case_l() {
        let file = sample("oak.lwo");
        let list = indices(&file);
        let places: Vec<(usize, usize)> = list.iter().map(|one| (one.at, one.chunk)).collect();
        assert_eq!(places, [(82, 68), (84, 68), (86, 68), (100, 88)]);
        assert!(list.iter().all(|one| is_short(&file, one)));
    }

    /// The horse has 31 vertices, the pairs of 7 surfaces and of 5 parts, and
    /// the envelopes of two colours.
    #[test]
    fn those_of_the_horse() {
        let file = sample("horse.lwo");
        let of = |tag: &Tag| {
            let list = indices(&file).into_iter();
            let held = list.filter(|one| file[one.chunk..].starts_with(tag));
            held.count()
        };
        assert_eq!([b"POLS", b"PTAG", b"SURF"].map(of), [31, 7 + 5, 2]);
    }

    /// Every index of the shield is long, and nothing more can be lengthened.
    #[test]
    fn those_of_the_shield() {
        let file = sample("shield.lwo");
        let list = indices(&file);
        assert_eq!(list.len(), 7 + 2 + 2);
        assert!(list.iter().all(|one| !is_short(&file, one)));
        assert_eq!(all_lengthened(&file), file);
    }

    /// Lengthened, every index is long, and has the value that it had.
    #[test]
    fn they_keep_their_values() {
        let file = sample("chest.lwo");
        let longer = all_lengthened(&file);
        let (before, after) = (indices(&file), indices(&longer));
        assert_eq!(longer.len(), file.len() + 2 * before.len());
        assert_eq!(before.len(), after.len());
        for (one, other) in before.iter().zip(&after) {
            assert_eq!(longer[other.at], 255);
            assert_eq!(word(&longer, other.at) & 0x00ff_ffff, half(&file, one.at));
        }
    }
}
