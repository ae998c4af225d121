//! What is wrong with a header: that of the file, of a chunk or of a sub-chunk.

use lwo::Escaped;

use super::expected::Expected;
use super::spot::Spot;
use super::{layer, named};
use crate::command::check::counted;
use crate::command::chunks::{kind, sub_chunks, Chunk};

/// The bytes of the header of a chunk, and of a sub-chunk.
const CHUNK_HEADER: usize = 8;
const SUB_CHUNK_HEADER: usize = 6;

/// The bytes of a point, and the most points of an LWOB file.
pub const POINT: usize = 12;
const LWOB_POINTS: usize = 65_536;

/// 2: not the beginning of an object file.
pub fn not_an_object(file: &[u8]) -> Option<Expected> {
    let (found, expected) = match (file.first_chunk::<4>(), kind(file)) {
        (Some(b"FORM"), b"LWOB" | b"LWO2") => return None,
        (_, b"") => (length_of(file), "12 bytes or more"),
        (Some(b"FORM"), kind) => (format!("the type {}", Escaped(kind)), "LWOB or LWO2"),
        (start, _) => (format!("{} at the start", Escaped(start?)), "FORM"),
    };
    Some(Expected {
        found,
        expected: String::from(expected),
    })
}

/// 3: the length behind FORM.
pub fn form_length(file: &[u8]) -> Option<Expected> {
    let length = u32::from_be_bytes(*file.get(4..)?.first_chunk()?) as usize;
    let expected = file.len().checked_sub(8)?;
    (length != expected).then(|| Expected {
        found: format!("a length of {length} in {}", length_of(file)),
        expected: expected.to_string(),
    })
}

fn length_of(file: &[u8]) -> String {
    match file.len() {
        0 => String::from("an empty file"),
        length => format!("a file of {}", bytes_counted(length)),
    }
}

/// What holds a chunk: the file, or another chunk.
struct Parent {
    end: usize,
    name: String,
    /// The bytes of a header in it.
    header: usize,
}

impl Parent {
    fn new(file: &[u8], holders: &[Chunk]) -> Parent {
        match holders.last() {
            Some(chunk) => Parent {
                end: chunk.end,
                name: Escaped(&chunk.tag).to_string(),
                header: SUB_CHUNK_HEADER,
            },
            None => Parent {
                end: file.len(),
                name: String::from("the file"),
                header: CHUNK_HEADER,
            },
        }
    }
}

/// 4: a header that is cut, or a tag, length or pad byte that is wrong.
pub fn header(spot: &Spot) -> Option<Expected> {
    match spot.holders {
        [outer @ .., own] if own.start == spot.place => {
            let parent = Parent::new(spot.file, outer);
            wrong_tag(own)
                .or_else(|| wrong_length(own, &parent))
                .or_else(|| wrong_pad(spot.file, own, &parent))
        }
        outer => cut_header(spot.place, &Parent::new(spot.file, outer)),
    }
}

fn cut_header(place: usize, parent: &Parent) -> Option<Expected> {
    let left = parent.end.checked_sub(place)?;
    (1..parent.header).contains(&left).then(|| Expected {
        found: format!("{} before the end of {}", bytes_counted(left), parent.name),
        expected: format!("a header of {} bytes, or none", parent.header),
    })
}

fn wrong_tag(chunk: &Chunk) -> Option<Expected> {
    let plain = chunk.tag.iter().all(|byte| (32..=126).contains(byte));
    (!plain).then(|| Expected {
        found: format!("the bytes {} as a tag", hexadecimal(&chunk.tag)),
        expected: String::from("four from 20 to 7e, plain text"),
    })
}

fn wrong_length(chunk: &Chunk, parent: &Parent) -> Option<Expected> {
    let left = parent.end.checked_sub(chunk.body)?;
    (chunk.length() > left).then(|| Expected {
        found: format!("a length of {}", chunk.length()),
        expected: format!("at most {left}, up to the end of {}", parent.name),
    })
}

fn wrong_pad(file: &[u8], chunk: &Chunk, parent: &Parent) -> Option<Expected> {
    if chunk.length().is_multiple_of(2) {
        return None;
    }
    let found = match file.get(chunk.end..parent.end)?.first() {
        Some(0) => return None,
        Some(byte) => format!("0x{byte:02x}"),
        None => format!("the end of {}", parent.name),
    };
    let body = bytes_counted(chunk.length());
    Some(Expected {
        found: format!("{found} behind a body of {body}"),
        expected: String::from("a zero byte, since that is odd"),
    })
}

/// 5: what has to come before a chunk, or a chunk that comes twice.
pub fn order(spot: &Spot) -> Option<Expected> {
    let (kind, tags) = spot.tags();
    let [tag] = tags[..] else {
        return None;
    };
    let needs: &[&[u8; 4]] = match (kind, tag) {
        (b"LWOB", b"PNTS" | b"SRFS") | (b"LWO2", b"TAGS") => return twice(spot, tag),
        (b"LWOB", b"POLS" | b"PCHS") => &[b"PNTS", b"SRFS"],
        (b"LWO2", b"POLS") => &[b"PNTS"],
        (b"LWO2", b"PTAG") => &[b"POLS"],
        _ => return None,
    };
    let missing = needs
        .iter()
        .filter(|need| spot.earlier_in_layer(need).next().is_none());
    let missing: Vec<String> = missing.map(|need| Escaped(*need).to_string()).collect();
    let expected = match missing.len() {
        0 => return None,
        1 => "one",
        _ => "both",
    };
    let before = match spot.layer() {
        Some(layer) => format!("before it in its layer ({})", named(&layer)),
        None => String::from("before it"),
    };
    Some(Expected {
        found: format!("no {} {before}", missing.join(" and no ")),
        expected: String::from(expected),
    })
}

fn twice(spot: &Spot, tag: &[u8; 4]) -> Option<Expected> {
    let first = spot.earlier(tag).next()?;
    Some(Expected {
        found: format!("a second {}", Escaped(tag)),
        expected: format!("only {}", named(&first)),
    })
}

/// 6: a length that the body cannot have.
pub fn body_length(spot: &Spot) -> Option<Expected> {
    let chunk = spot.own()?;
    let (kind, tags) = spot.tags();
    let found = chunk.length();
    let expected = match (kind, &tags[..]) {
        (b"LWOB" | b"LWO2", [b"PNTS"]) => return points_length(kind, chunk),
        (b"LWO2", [b"LAYR"]) => return layer::body_length(spot.file, chunk),
        (b"LWOB", [b"SURF", tag]) => lwob_length(tag)?,
        (b"LWO2", [b"SURF", b"SIDE"]) => 2,
        (b"LWO2", [b"SURF", tag]) => {
            let levels = lwo2_levels(tag)?;
            levels + index_length(*spot.file.get(chunk.body + levels)?)
        }
        _ => return None,
    };
    (found != expected).then(|| Expected {
        found: format!("a length of {found}"),
        expected: expected.to_string(),
    })
}

fn points_length(kind: &[u8], chunk: &Chunk) -> Option<Expected> {
    let (length, points) = (chunk.length(), chunk.length() / POINT);
    if length % POINT > 0 {
        return Some(Expected {
            found: format!("a length of {length}"),
            expected: format!("{POINT} for each point"),
        });
    }
    (kind == b"LWOB" && points > LWOB_POINTS).then(|| Expected {
        found: format!("{points} points"),
        expected: format!("at most {LWOB_POINTS}"),
    })
}

/// The fixed length of a sub-chunk of an LWOB surface.
fn lwob_length(tag: &[u8; 4]) -> Option<usize> {
    match tag {
        b"COLR" | b"VLUM" | b"VDIF" | b"VSPC" | b"VRFL" | b"VTRN" => Some(4),
        b"LUMI" | b"DIFF" | b"SPEC" | b"REFL" | b"TRAN" | b"FLAG" => Some(2),
        _ => None,
    }
}

/// The bytes of the levels in a sub-chunk of an LWO2 surface, before the index of their envelope.
pub fn lwo2_levels(tag: &[u8; 4]) -> Option<usize> {
    match tag {
        b"COLR" => Some(12),
        b"DIFF" | b"LUMI" | b"SPEC" | b"REFL" | b"TRAN" => Some(4),
        _ => None,
    }
}

/// The bytes of an index, by its first one.
fn index_length(first: u8) -> usize {
    match first {
        255 => 4,
        _ => 2,
    }
}

/// 15 of a block: what it begins with.
pub fn block(spot: &Spot) -> Option<Expected> {
    let block = spot.own().filter(|chunk| chunk.tag == *b"BLOK")?;
    let first = sub_chunks(spot.file.get(..block.end)?, block.body).next();
    let found = match first {
        None if block.length() == 0 => String::from("nothing in the block"),
        Some(first) if !matches!(&first.tag, b"IMAP" | b"PROC" | b"GRAD" | b"SHDR") => {
            format!("{} first in the block", Escaped(&first.tag))
        }
        _ => return None,
    };
    Some(Expected {
        found,
        expected: String::from("IMAP, PROC, GRAD or SHDR"),
    })
}

/// As in `1 byte` and `2 bytes`; none is `nothing`.
pub fn bytes_counted(count: usize) -> String {
    match count {
        0 => String::from("nothing"),
        _ => counted(count as u64, "byte"),
    }
}

/// As in `7f c0 00 00`.
pub fn hexadecimal(bytes: &[u8]) -> String {
    let digits = bytes.iter().map(|byte| format!("{byte:02x}"));
    digits.collect::<Vec<String>>().join(" ")
}
