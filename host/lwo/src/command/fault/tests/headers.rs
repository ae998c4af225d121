//! 2 to 6, and 15 of a block.

use cases::assemble::{chunk, f4, form, join, sub_chunk, u2, vx_long, vx_short, Kind};

use super::{face, lwo2, lwob, names, old_surface, points, surface, told};

#[test]
fn the_beginning_of_a_file() {
    for (file, text) in [
        (
            &b""[..],
            "refused 2 at 0; found an empty file, expected 12 bytes or more",
        ),
        (
            b"FORM\0",
            "refused 2 at 0; found a file of 5 bytes, expected 12 bytes or more",
        ),
        (
            b"\x89PNG\r\n\x1a\n\0\0\0\0",
            r"refused 2 at 0; found \x89PNG at the start, expected FORM",
        ),
        (
            b"FORM\0\0\0\x04LWO3",
            "refused 2 at 0; found the type LWO3, expected LWOB or LWO2",
        ),
        (
            b"FORM\0\0\0\x05LWO2",
            "refused 3 at 0; found a length of 5 in a file of 12 bytes, expected 4",
        ),
    ] {
        assert_eq!(told(file), text);
    }
}

#[test]
fn headers_of_chunks() {
    for (content, text) in [
        (
            &b"PNTS\0\0\0"[..],
            "refused 4 at 12; found 7 bytes before the end of the file, \
             expected a header of 8 bytes, or none",
        ),
        (
            b"PN\0S\0\0\0\0",
            "refused 4 at 12 (PN\\0S at 12); found the bytes 50 4e 00 53 as a tag, \
             expected four from 20 to 7e, plain text",
        ),
        (
            b" ~A \0\0\0\x09abcd",
            "refused 4 at 12 ( ~A  at 12); found a length of 9, \
             expected at most 4, up to the end of the file",
        ),
        (
            b"NOTE\0\0\0\x03abc",
            "refused 4 at 12 (NOTE at 12); found the end of the file behind a body of 3 bytes, \
             expected a zero byte, since that is odd",
        ),
        (
            b"NOTE\0\0\0\x01ab",
            "refused 4 at 12 (NOTE at 12); found 0x62 behind a body of 1 byte, \
             expected a zero byte, since that is odd",
        ),
    ] {
        for kind in [Kind::Lwob, Kind::Lwo2] {
            assert_eq!(told(&form(kind, content)), text);
        }
    }
}

#[test]
fn headers_of_sub_chunks() {
    for (sub_chunks, text) in [
        (
            &b"SIDE\0"[..],
            "refused 4 at 26 (SURF at 12); found 5 bytes before the end of SURF, \
             expected a header of 6 bytes, or none",
        ),
        (
            b"\xff\xff\xff\xff\0\0",
            "refused 4 at 26 (\\xff\\xff\\xff\\xff at 26 of SURF at 12); \
             found the bytes ff ff ff ff as a tag, expected four from 20 to 7e, plain text",
        ),
        (
            b"GLOS\0\0NEXT\0\x03ab",
            "refused 4 at 32 (NEXT at 32 of SURF at 12); found a length of 3, \
             expected at most 2, up to the end of SURF",
        ),
        // The pad byte of the SURF does not serve its last sub-chunk.
        (
            b"GLOS\0\x01x",
            "refused 4 at 26 (GLOS at 26 of SURF at 12); \
             found the end of SURF behind a body of 1 byte, expected a zero byte, since that is odd",
        ),
    ] {
        assert_eq!(told(&old_surface(&[sub_chunks.to_vec()])), text);
    }
}

/// A block, what it begins with, and the mapping in it.
#[test]
fn headers_deep_in_a_block() {
    for (block, text) in [
        (
            &b"IMAP\0\x05a\0CHA\0"[..],
            "refused 4 at 44 (IMAP at 36 of BLOK at 30 of SURF at 12); \
             found 3 bytes before the end of IMAP, expected a header of 6 bytes, or none",
        ),
        (
            b"IMAP\0\x08a\0CHAN\0\x04TMAP\0\0",
            "refused 4 at 44 (CHAN at 44 of IMAP at 36 of BLOK at 30 of SURF at 12); \
             found a length of 4, expected at most 0, up to the end of IMAP",
        ),
        (
            b"PROC\0\x02a\0TMAP\0\x06SIZE\0\x02",
            "refused 4 at 50 (SIZE at 50 of TMAP at 44 of BLOK at 30 of SURF at 12); \
             found a length of 2, expected at most 0, up to the end of TMAP",
        ),
        (
            b"GRAD\0\x02a\0TM",
            "refused 4 at 44 (BLOK at 30 of SURF at 12); \
             found 2 bytes before the end of BLOK, expected a header of 6 bytes, or none",
        ),
    ] {
        assert_eq!(told(&surface(&[sub_chunk(b"BLOK", block)])), text);
    }
}

#[test]
fn what_has_to_come_before() {
    for (file, text) in [
        (
            lwob(&[points(), names(b"SRFS"), points()]),
            "refused 5 at 72 (PNTS at 72); found a second PNTS, expected only PNTS at 12",
        ),
        (
            lwob(&[names(b"SRFS"), names(b"SRFS")]),
            "refused 5 at 28 (SRFS at 28); found a second SRFS, expected only SRFS at 12",
        ),
        (
            lwo2(&[names(b"TAGS"), points(), names(b"TAGS")]),
            "refused 5 at 72 (TAGS at 72); found a second TAGS, expected only TAGS at 12",
        ),
        (
            lwob(&[chunk(b"POLS", b"")]),
            "refused 5 at 12 (POLS at 12); found no PNTS and no SRFS before it, expected both",
        ),
        (
            lwob(&[points(), chunk(b"PCHS", b""), names(b"SRFS")]),
            "refused 5 at 56 (PCHS at 56); found no SRFS before it, expected one",
        ),
        (
            lwo2(&[face(), points()]),
            "refused 5 at 12 (POLS at 12); found no PNTS before it, expected one",
        ),
    ] {
        assert_eq!(told(&file), text);
    }
}

/// Also where what a type holds is not judged, as that of smoothing groups.
#[test]
fn tags_of_every_type_come_behind_polygons() {
    for kind in [b"SURF", b"PART", b"SMGP"] {
        let text = "refused 5 at 56 (PTAG at 56); found no POLS before it, expected one";
        let file = lwo2(&[points(), chunk(b"PTAG", kind), face()]);
        assert_eq!(told(&file), text);
    }
}

#[test]
fn lengths_of_points() {
    let many = chunk(b"PNTS", &[0; 12 * 65_537]);
    for (file, text) in [
        (
            lwo2(&[chunk(b"PNTS", &[0; 13])]),
            "refused 6 at 12 (PNTS at 12); found a length of 13, expected 12 for each point",
        ),
        (
            lwob(&[chunk(b"PNTS", &[0; 11])]),
            "refused 6 at 12 (PNTS at 12); found a length of 11, expected 12 for each point",
        ),
        (
            lwob(&[many]),
            "refused 6 at 12 (PNTS at 12); found 65537 points, expected at most 65536",
        ),
    ] {
        assert_eq!(told(&file), text);
    }
}

#[test]
fn lengths_of_surface_values() {
    let level = f4(0);
    let colour = join(&[f4(0), f4(0), f4(0)]);
    for (tag, body, length) in [
        (b"COLR", vec![0; 3], 4),
        (b"LUMI", vec![0; 4], 2),
        (b"VTRN", vec![0; 2], 4),
        (b"FLAG", vec![], 2),
    ] {
        let text = format!(
            "refused 6 at 32 ({} at 32 of SURF at 12); found a length of {}, expected {length}",
            String::from_utf8_lossy(tag),
            body.len(),
        );
        let file = old_surface(&[sub_chunk(b"GLOS", b""), sub_chunk(tag, &body)]);
        assert_eq!(told(&file), text);
    }
    for (tag, body, length) in [
        (b"SIDE", vec![0, 3, 0, 0], 2),
        (b"DIFF", join(&[&level[..], &vx_short(0), &u2(0)]), 6),
        (b"REFL", join(&[&level[..], &vx_long(65_280), &[0]]), 8),
        (b"COLR", join(&[&colour[..], &vx_short(0), &[0]]), 14),
        (b"COLR", join(&[&colour[..], &vx_long(65_280), &u2(0)]), 16),
    ] {
        let text = format!(
            "refused 6 at 36 ({} at 36 of SURF at 12); found a length of {}, expected {length}",
            String::from_utf8_lossy(tag),
            body.len(),
        );
        let file = surface(&[sub_chunk(b"GLOS", b""), sub_chunk(tag, &body)]);
        assert_eq!(told(&file), text);
    }
}

/// The block's own header is at fault, at which a sub-chunk before it ends.
#[test]
fn what_a_block_begins_with() {
    for (block, found) in [
        (&b""[..], "nothing in the block"),
        (b"CHAN\0\0", "CHAN first in the block"),
        (b"TMAP\0\x02ab", "TMAP first in the block"),
    ] {
        let text = format!(
            "refused 15 at 38 (BLOK at 38 of SURF at 12); \
             found {found}, expected IMAP, PROC, GRAD or SHDR"
        );
        let file = surface(&[sub_chunk(b"SIDE", &u2(3)), sub_chunk(b"BLOK", block)]);
        assert_eq!(told(&file), text);
    }
}
