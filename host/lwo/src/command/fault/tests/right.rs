//! Of what is right nothing is told, whatever number is given for it.

use cases::assemble::{chunk, f4, i2, join, string, sub_chunk, u2, vx_long, vx_short};
use lwo::{Counts, Refusal, RefusalKind as K};

use super::{face, layer, lwo2, lwob, many_points, names, points, Fault};
use crate::command::chunks::chunks;

/// Nothing is told of a file that the library accepts, as if it were refused.
fn is_silent(file: &[u8], kind: K, place: usize) {
    assert!(Counts::of(file).is_ok());
    let fault = Fault::of(Refusal::new(kind, place as u64), file);
    assert_eq!(fault.expected, None, "{fault}");
}

#[test]
fn headers() {
    let bounds = [
        lwob(&[chunk(b"PNTS", &vec![0; 12 * 65_536])]),
        lwo2(&[chunk(b"PNTS", &vec![0; 12 * 65_537])]),
    ];
    let patch = join(&[u2(1), u2(0), i2(1)]);
    let files = [
        lwo2(&[names(b"TAGS"), points(), face(), chunk(b"PTAG", b"PART")]),
        lwo2(&[names(b"TAGS"), points(), face(), chunk(b"PTAG", b"SMGP")]),
        lwo2(&[face_in_layer(b""), face_in_layer(&u2(0))].map(|layer| join(&layer))),
        lwob(&[
            points(),
            names(b"SRFS"),
            chunk(b"POLS", b""),
            chunk(b"PCHS", &patch),
            chunk(b"NOTE", b"x"),
            chunk(b"LAYR", b"odd"),
        ]),
    ];
    for file in bounds.iter().chain(&files) {
        for kind in [K::NotAnObject, K::FormLength] {
            is_silent(file, kind, 0);
        }
        for chunk in chunks(file) {
            for kind in [K::Chunk, K::Order, K::Body, K::SideOrBlock] {
                is_silent(file, kind, chunk.start);
            }
            is_silent(file, K::Body, chunk.body);
        }
        is_silent(file, K::Chunk, file.len());
    }
}

/// `Oak` and `Ash` from 20 on, a face from 80 on and a pair from 104 on, of a surface or of a part.
#[test]
fn items_and_strings_of_lwo2() {
    let [of_surface, of_part] = [b"SURF", b"PART"].map(|kind| {
        let pairs = join(&[&kind[..], &vx_short(0), &u2(1)]);
        lwo2(&[names(b"TAGS"), points(), face(), chunk(b"PTAG", &pairs)])
    });
    for (kind, place) in [
        (K::Name, 20),
        (K::Name, 24),
        (K::StringOpen, 24),
        (K::NotFinite, 36),
        (K::PolygonType, 80),
        (K::VertexCount, 84),
        (K::VertexNumber, 90),
        (K::LongIndex, 90),
        (K::ItemCut, 80),
        (K::ItemCut, 90),
        (K::PolygonNumber, 104),
        (K::LongIndex, 104),
        (K::Surface, 106),
        (K::ItemCut, 106),
    ] {
        is_silent(&of_surface, kind, place);
        is_silent(&of_part, kind, place);
    }
}

/// An index in four bytes is right from 65,280 on, as the vertex at 783,406 is, and where it is not
/// judged, as the one at 783,422 in a PTAG of neither type SURF nor PART. LWOB has numbers of two
/// bytes alone, as the vertex at 783,418.
#[test]
fn long_indices() {
    let face = join(&[&b"FACE"[..], &u2(1), &vx_long(65_280)]);
    let group = join(&[&b"SMGP"[..], &vx_long(0), &u2(0)]);
    let file = lwo2(&[many_points(), chunk(b"POLS", &face), chunk(b"PTAG", &group)]);
    for (kind, place) in [
        (K::LongIndex, 783_406),
        (K::VertexNumber, 783_406),
        (K::ItemCut, 783_406),
        (K::LongIndex, 783_422),
    ] {
        is_silent(&file, kind, place);
    }
    let face = chunk(b"POLS", &join(&[u2(1), u2(65_280), i2(1)]));
    let file = lwob(&[many_points(), names(b"SRFS"), face]);
    for kind in [K::LongIndex, K::VertexNumber, K::ItemCut] {
        is_silent(&file, kind, 783_418);
    }
}

/// A layer with all that a face needs.
fn face_in_layer(parent: &[u8]) -> [Vec<u8>; 4] {
    [layer(parent), points(), face(), chunk(b"PTAG", b"SMGP")]
}

/// The name stands 16 bytes behind the first byte of the body, and ends with the byte before a
/// parent.
#[test]
fn layers() {
    for parent in [&b""[..], &u2(0)] {
        let file = lwo2(&face_in_layer(parent));
        for offset in [0, 2, 4, 8, 12, 19, 20] {
            is_silent(&file, K::ItemCut, 20 + offset);
            is_silent(&file, K::NotFinite, 20 + offset);
        }
        is_silent(&file, K::StringOpen, 20 + 16);
    }
}

/// A face with a detail from 80 on, and a patch from 102 on.
#[test]
fn items_of_lwob() {
    let face = [1, 0, -2, 1, 1, 2, 1];
    let body: Vec<u8> = face.into_iter().flat_map(i2).collect();
    let patch = chunk(b"PCHS", &join(&[u2(1), u2(0), i2(2)]));
    let file = lwob(&[points(), names(b"SRFS"), chunk(b"POLS", &body), patch]);
    for (kind, place) in [
        (K::VertexCount, 80),
        (K::VertexNumber, 82),
        (K::Surface, 84),
        (K::Surface, 92),
        (K::Detail, 92),
        (K::ItemCut, 92),
        (K::Surface, 106),
        (K::ItemCut, 106),
    ] {
        is_silent(&file, kind, place);
    }
}

#[test]
fn surfaces() {
    let colour = join(&[f4(0), f4(0), f4(0), vx_long(65_280)]);
    // A level that looks like an index in four bytes, and such an index in a block, where none is
    // judged.
    let diffuse = join(&[f4(0xff00_0001), vx_short(0)]);
    let long = sub_chunk(b"DIFF", &join(&[f4(0), vx_long(1)]));
    let block = |tag| {
        let first = sub_chunk(tag, &string(b"a"));
        sub_chunk(b"BLOK", &join(&[&first, &long]))
    };
    let body = [
        string(b"Lime"),
        string(b"oak"),
        sub_chunk(b"SIDE", &u2(3)),
        sub_chunk(b"COLR", &colour),
        sub_chunk(b"DIFF", &diffuse),
        block(b"IMAP"),
        block(b"PROC"),
        block(b"GRAD"),
        block(b"SHDR"),
    ];
    let file = lwo2(&[chunk(b"SURF", &join(&body))]);
    let starts: Vec<usize> = body
        .iter()
        .scan(20, |next, piece| {
            let start = *next;
            *next += piece.len();
            Some(start)
        })
        .collect();
    let [name, source, side, colour, diffuse, blocks @ ..] = &starts[..] else {
        unreachable!("there are nine");
    };
    for start in [side, colour, diffuse].into_iter().chain(blocks) {
        for kind in [K::Chunk, K::Body, K::SideOrBlock] {
            is_silent(&file, kind, *start);
        }
    }
    for (kind, place) in [
        (K::StringOpen, *name),
        (K::StringOpen, *source),
        (K::SideOrBlock, side + 6),
        (K::NotFinite, colour + 10),
        (K::ItemCut, colour + 14),
        (K::ItemCut, colour + 18),
        (K::ItemCut, diffuse + 10),
        (K::LongIndex, colour + 18),
        (K::LongIndex, diffuse + 6),
        (K::LongIndex, diffuse + 10),
        (K::LongIndex, blocks[0] + 24),
        (K::StringOpen, blocks[0] + 12),
    ] {
        is_silent(&file, kind, place);
    }
}
