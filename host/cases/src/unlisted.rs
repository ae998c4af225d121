//! Chunks and sub-chunks that are skipped: "Unlisted tags are skipped;
//! top-level ones are counted as skipped. A tag is listed only where it is
//! named below, by kind of file and level."

use crate::assemble::{chunk, sub_chunk, vx_long, Kind, Tag};
use crate::random::Random;

/// The tags that are listed at the top level, LWO2's LAYR by request #103.
pub fn listed_tags(kind: Kind) -> &'static [&'static Tag] {
    match kind {
        Kind::Lwob => &[b"PNTS", b"SRFS", b"POLS", b"PCHS", b"SURF"],
        Kind::Lwo2 => &[b"PNTS", b"TAGS", b"POLS", b"PTAG", b"SURF", b"LAYR"],
    }
}

/// Tags that are known elsewhere, and so may be taken for listed ones. Those
/// that are listed in a kind of file are left out for it.
const KNOWN: [&Tag; 25] = [
    b"CRVS", b"TAGS", b"PTAG", b"SRFS", b"PCHS", b"LAYR", b"VMAP", b"VMAD", b"VMPA", b"ENVL",
    b"CLIP", b"BBOX", b"DESC", b"TEXT", b"ICON", b"FORM", b"LWO2", b"BLOK", b"COLR", b"SIDE",
    b"    ", b"~~~~", b"pnts", b"SUR ", b"PART",
];

/// Any tag that is not listed at the top level.
pub fn tag(random: &mut Random, kind: Kind) -> Tag {
    loop {
        let tag = if random.once_in(4) {
            any_tag(random)
        } else {
            **random.pick(&KNOWN)
        };
        if !listed_tags(kind).contains(&&tag) {
            return tag;
        }
    }
}

/// Four bytes from 32 to 126.
pub fn any_tag(random: &mut Random) -> Tag {
    [0; 4].map(|_: u8| random.between(32, 126) as u8)
}

/// A well-formed unlisted chunk of any length up to 40, with any body.
pub fn unlisted_chunk(random: &mut Random, kind: Kind) -> Vec<u8> {
    let tag = tag(random, kind);
    let body = any_body(random, 40);
    chunk(&tag, &body)
}

/// A well-formed sub-chunk whose tag is none of these, with any body.
pub fn unlisted_sub_chunk(random: &mut Random, known: &[&Tag], listed: &[&Tag]) -> Vec<u8> {
    loop {
        let tag = if random.once_in(4) {
            any_tag(random)
        } else {
            **random.pick(known)
        };
        if !listed.contains(&&tag) {
            let body = any_body(random, 20);
            return sub_chunk(&tag, &body);
        }
    }
}

/// Any bytes, up to so many; none at all is likely too. Now and then they are
/// what #107 refuses "wherever a VX is read", which is not here.
pub fn any_body(random: &mut Random, most: u64) -> Vec<u8> {
    if random.once_in(8) {
        let index = vx_long(random.below(6) as u32);
        return index.repeat(random.between(1, most / 4) as usize);
    }
    let length = if random.once_in(3) {
        random.below(4)
    } else {
        random.between(0, most)
    };
    random.bytes(length as usize)
}

#[cfg(test)]
mod tests {
    use super::*;
    use std::collections::HashSet;

    /// Unlisted chunks have the tags that only the other kind lists, and none
    /// that their own kind does: LAYR is one of them in LWOB alone.
    #[test]
    fn the_other_kind_s_tags_are_unlisted() {
        for (kind, other) in [(Kind::Lwob, Kind::Lwo2), (Kind::Lwo2, Kind::Lwob)] {
            let random = &mut Random::new(1);
            let tags: HashSet<Tag> = (0..2_000).map(|_| tag(random, kind)).collect();
            for own in listed_tags(kind) {
                assert!(!tags.contains(*own), "{own:?}");
            }
            for only in listed_tags(other) {
                let listed = listed_tags(kind).contains(only);
                assert!(listed || tags.contains(*only), "{only:?}");
            }
            assert_eq!(tags.contains(b"LAYR"), kind == Kind::Lwob);
        }
    }
}
