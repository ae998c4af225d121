//! 4: "header cut, tag byte outside 32..126, length past the parent's end, pad
//! byte missing or not zero", at every level, at the first byte of that header.

use super::settings::Setting;
use super::{Catalogue, Fault, KINDS};
use crate::assemble::{chunk, join, string, sub_chunk, Kind};

pub fn add(catalogue: &mut Catalogue) {
    for kind in KINDS {
        add_top_level(catalogue, kind);
        add_level_two(catalogue, kind);
    }
    add_level_three(catalogue);
    add_level_four(catalogue);
}

/// Bytes that are no well-formed chunk or sub-chunk at their parent's end.
/// The length has so many bytes: 4 in a chunk, 2 in a sub-chunk.
fn malformed(tag: &[u8; 4], length_bytes: usize) -> Vec<(String, Vec<u8>)> {
    let mut list = Vec::new();
    cut_headers(tag, length_bytes, &mut list);
    bad_tag_bytes(tag, length_bytes, &mut list);
    long_lengths(tag, length_bytes, &mut list);
    bad_pads(tag, length_bytes, &mut list);
    list
}

fn header(tag: &[u8; 4], length_bytes: usize, length: u8) -> Vec<u8> {
    let mut bytes = tag.to_vec();
    bytes.resize(4 + length_bytes - 1, 0);
    bytes.push(length);
    bytes
}

fn cut_headers(tag: &[u8; 4], length_bytes: usize, list: &mut Vec<(String, Vec<u8>)>) {
    let whole = header(tag, length_bytes, 0);
    for there in 1..whole.len() {
        list.push((format!("cut-{there}"), whole[..there].to_vec()));
        list.push((format!("zeros-{there}"), vec![0; there]));
    }
}

fn bad_tag_bytes(tag: &[u8; 4], length_bytes: usize, list: &mut Vec<(String, Vec<u8>)>) {
    for at in 0..4 {
        for byte in [0, 31, 127, 128, 255] {
            let mut bytes = header(tag, length_bytes, 0);
            bytes[at] = byte;
            list.push((format!("tag-{at}-{byte}"), bytes));
        }
    }
}

fn long_lengths(tag: &[u8; 4], length_bytes: usize, list: &mut Vec<(String, Vec<u8>)>) {
    for (length, there) in [(1, 0), (2, 0), (2, 1), (3, 2), (4, 2), (255, 254)] {
        let mut bytes = header(tag, length_bytes, length);
        bytes.resize(bytes.len() + there, 0);
        list.push((format!("length-{length}-of-{there}"), bytes));
    }
    let mut largest = tag.to_vec();
    largest.resize(4 + length_bytes, 255);
    list.push((String::from("length-largest"), largest));
    let mut high = header(tag, length_bytes, 0);
    high[4] = 128;
    list.push((String::from("length-high-bit"), high));
}

fn bad_pads(tag: &[u8; 4], length_bytes: usize, list: &mut Vec<(String, Vec<u8>)>) {
    for length in [1, 3] {
        let mut bytes = header(tag, length_bytes, length);
        bytes.resize(bytes.len() + usize::from(length), 7);
        list.push((format!("pad-missing-{length}"), bytes.clone()));
        for pad in [1, 255] {
            let padded = join(&[&bytes[..], &[pad]]);
            list.push((format!("pad-{pad}-{length}"), padded));
        }
    }
}

/// At the top level, under an unlisted and a listed tag. "A chunk's tag, length
/// and pad are judged together (4), then 5", so PNTS is 4 also where it comes
/// twice and has a wrong length.
fn add_top_level(catalogue: &mut Catalogue, kind: Kind) {
    for (word, tag) in [("unlisted", b"ABCD"), ("pnts", b"PNTS"), ("surf", b"SURF")] {
        for (name, bytes) in malformed(tag, 4) {
            let name = format!("top-{word}-{name}");
            let fault = Fault {
                number: 4,
                offset: 0,
            };
            catalogue.add_tail(&name, &Setting::ready(kind), &bytes, fault);
        }
    }
}

/// A body with the malformed bytes at its end, for one level of nesting.
struct Nest {
    name: &'static str,
    /// What stands before the malformed bytes in the innermost parent.
    front: Vec<u8>,
    /// The headers around, the innermost first, each with what stands before
    /// it in its own parent.
    around: Vec<(&'static [u8; 4], Vec<u8>)>,
}

impl Nest {
    /// The SURF chunk, and where the malformed bytes lie in it.
    fn surf(&self, malformed: &[u8]) -> (Vec<u8>, usize) {
        let mut body = join(&[&self.front[..], malformed]);
        let mut offset = self.front.len();
        for (tag, before) in &self.around {
            offset += before.len() + 6;
            body = join(&[&before[..], &sub_chunk(tag, &body)]);
        }
        (chunk(b"SURF", &body), offset + 8)
    }
}

fn add_nest(catalogue: &mut Catalogue, kind: Kind, nest: &Nest) {
    for (name, bytes) in malformed(b"ABCD", 2) {
        let (surf, offset) = nest.surf(&bytes);
        let name = format!("{}-{name}", nest.name);
        let fault = Fault { number: 4, offset };
        catalogue.add_chunk(&name, &Setting::ready(kind), &surf, fault);
    }
}

/// What a SURF begins with: its name, in LWO2 its source too.
pub fn surf_front(kind: Kind) -> Vec<u8> {
    match kind {
        Kind::Lwob => string(b"a"),
        Kind::Lwo2 => join(&[string(b"a"), string(b"")]),
    }
}

/// A SURF with these sub-chunks.
pub fn surf(kind: Kind, subs: &[&[u8]]) -> Vec<u8> {
    let body = join(&[&surf_front(kind)[..], &join(subs)]);
    chunk(b"SURF", &body)
}

/// SURF's own sub-chunks, the first of them and a later one.
fn add_level_two(catalogue: &mut Catalogue, kind: Kind) {
    let front = surf_front(kind);
    let later = join(&[&front[..], &sub_chunk(b"GLOS", b"odd")]);
    for (name, front) in [("level-2-first", front), ("level-2-later", later)] {
        let nest = Nest {
            name,
            front,
            around: Vec::new(),
        };
        add_nest(catalogue, kind, &nest);
    }
}

/// BLOK's sub-chunks: the first, one after the block header, one after others.
fn add_level_three(catalogue: &mut Catalogue) {
    let header = sub_chunk(b"PROC", &string(b"x"));
    let others = join(&[&header[..], &sub_chunk(b"TMAP", &[])]);
    for (name, front) in [
        ("level-3-first", Vec::new()),
        ("level-3-second", header),
        ("level-3-third", others),
    ] {
        let nest = Nest {
            name,
            front,
            around: vec![(b"BLOK", surf_front(Kind::Lwo2))],
        };
        add_nest(catalogue, Kind::Lwo2, &nest);
    }
}

/// The sub-chunks of each block header and of a TMAP.
fn add_level_four(catalogue: &mut Catalogue) {
    for (name, tag) in [
        ("level-4-imap", b"IMAP"),
        ("level-4-proc", b"PROC"),
        ("level-4-grad", b"GRAD"),
        ("level-4-shdr", b"SHDR"),
    ] {
        let nest = Nest {
            name,
            front: string(b"xy"),
            around: vec![(tag, Vec::new()), (b"BLOK", surf_front(Kind::Lwo2))],
        };
        add_nest(catalogue, Kind::Lwo2, &nest);
    }
    let after_sibling = Nest {
        name: "level-4-later",
        front: join(&[&string(b"x")[..], &sub_chunk(b"CHAN", b"odd")]),
        around: vec![(b"GRAD", Vec::new()), (b"BLOK", surf_front(Kind::Lwo2))],
    };
    add_nest(catalogue, Kind::Lwo2, &after_sibling);
    let in_mapping = Nest {
        name: "level-4-tmap",
        front: Vec::new(),
        around: vec![
            (b"TMAP", sub_chunk(b"IMAP", &string(b""))),
            (b"BLOK", surf_front(Kind::Lwo2)),
        ],
    };
    add_nest(catalogue, Kind::Lwo2, &in_mapping);
}
