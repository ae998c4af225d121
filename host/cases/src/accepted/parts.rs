//! PTAG of type PART in files that must be accepted: what request #111 says of
//! it, and where its bytes say nothing.

use super::{add, name_list, points, polygons, record, surf, tagging, tagging_of};
use super::{Accepted, HALF, QUARTER};
use crate::assemble::{chunk, join, u2, vx_short, Kind, Tag};
use crate::layer::Layer;
use crate::lwob::entry;
use crate::plain::{PlainMesh, UNDEFINED};

pub fn add_parts(list: &mut Vec<Accepted>) {
    add_each_name(list);
    add_beside_surfaces(list);
    add_last_stands(list);
    add_latest_polygons(list);
    add_layers(list);
    add_empty(list);
    add_tags_so_far(list);
    add_defined_names(list);
    add_other_types(list);
    add_skipped(list);
    add_lwob(list);
}

/// A PTAG of type PART.
fn parts(pairs: &[(u32, u16)]) -> Vec<u8> {
    tagging_of(b"PART", pairs)
}

/// The names of most of these files.
const NAMES: [&[u8]; 3] = [b"oak", b"head", b"saddle"];

fn add_names(mesh: &mut PlainMesh) {
    for name in NAMES {
        mesh.add_name(name, &UNDEFINED);
    }
}

/// The surface and the part of each of three faces.
type Faces = [(u32, u32); 3];

/// Pairs of polygon and tag.
type Pairs = &'static [(u32, u16)];

/// Three names, two points, three faces of them, and these chunks; what each
/// face must have.
fn add_faces(list: &mut Vec<Accepted>, name: &str, chunks: &[Vec<u8>], tagged: Faces) {
    let faces: [&[u32]; 3] = [&[0, 1], &[1], &[0]];
    let (two, words) = points(2, HALF);
    let before = [
        name_list(Kind::Lwo2, &NAMES),
        two,
        polygons(b"FACE", &faces),
    ];
    let mut mesh = PlainMesh {
        points: words,
        ..PlainMesh::default()
    };
    for (vertices, (surface, part)) in faces.into_iter().zip(tagged) {
        mesh.add_polygon_of_part(1, vertices, surface, part);
    }
    add_names(&mut mesh);
    let name = format!("part-{name}");
    add(list, Kind::Lwo2, &name, &[&before, chunks].concat(), mesh);
}

/// "part name, 0 for none, else counted from 1 in TAGS": each name, with no
/// surface beside it.
fn add_each_name(list: &mut Vec<Accepted>) {
    for tag in 0..3 {
        let part = u32::from(tag) + 1;
        let chunks = [parts(&[(1, tag)])];
        let name = format!("of-name-{part}");
        add_faces(list, &name, &chunks, [(0, 0), (0, part), (0, 0)]);
    }
    let chunks = [parts(&[(2, 2), (0, 1), (1, 0)])];
    add_faces(list, "of-each-face", &chunks, [(0, 2), (0, 1), (0, 3)]);
}

/// "A polygon gains a fourth number": surface and part of one polygon, by the
/// same name and by two, and of two polygons, whichever PTAG comes first. A
/// later SURF leaves the part, and a later PART the surface.
fn add_beside_surfaces(list: &mut Vec<Accepted>) {
    let rows: [(&str, Pairs, Pairs, Faces); 4] = [
        ("two-names", &[(1, 0)], &[(1, 2)], [(0, 0), (1, 3), (0, 0)]),
        ("one-name", &[(1, 1)], &[(1, 1)], [(0, 0), (2, 2), (0, 0)]),
        ("two-faces", &[(0, 2)], &[(2, 0)], [(3, 0), (0, 0), (0, 1)]),
        (
            "all-faces",
            &[(0, 0), (1, 0), (2, 1)],
            &[(2, 1), (1, 2), (0, 1)],
            [(1, 2), (1, 3), (2, 2)],
        ),
    ];
    for (name, surface_pairs, part_pairs, tagged) in rows {
        let after = [tagging(surface_pairs), parts(part_pairs)];
        add_faces(list, &format!("after-surface-{name}"), &after, tagged);
        let before = [parts(part_pairs), tagging(surface_pairs)];
        add_faces(list, &format!("before-surface-{name}"), &before, tagged);
    }
    let kept = [
        parts(&[(0, 2)]),
        tagging(&[(0, 0), (1, 0)]),
        tagging(&[(0, 1)]),
    ];
    add_faces(list, "kept-by-surfaces", &kept, [(2, 3), (1, 0), (0, 0)]);
    let keeps = [
        tagging(&[(0, 2)]),
        parts(&[(0, 0), (1, 0)]),
        parts(&[(0, 1)]),
    ];
    add_faces(list, "keeps-the-surface", &keeps, [(3, 2), (0, 1), (0, 0)]);
}

/// "and the last stands", in one PTAG and over several.
fn add_last_stands(list: &mut Vec<Accepted>) {
    let smoothing = chunk(b"PTAG", &join(&[&b"SMGP"[..], &vx_short(1), &u2(0)]));
    let rows: [(&str, Vec<Vec<u8>>, Faces); 5] = [
        (
            "last-of-one-list",
            vec![parts(&[(1, 0), (0, 1), (1, 2)])],
            [(0, 2), (0, 3), (0, 0)],
        ),
        (
            "last-is-the-first-name",
            vec![parts(&[(1, 2), (1, 0)])],
            [(0, 0), (0, 1), (0, 0)],
        ),
        (
            "last-of-two-lists",
            vec![parts(&[(1, 0), (2, 1)]), parts(&[(1, 1)])],
            [(0, 0), (0, 2), (0, 2)],
        ),
        (
            "last-around-a-surface",
            vec![parts(&[(1, 0)]), tagging(&[(1, 1)]), parts(&[(1, 2)])],
            [(0, 0), (2, 3), (0, 0)],
        ),
        (
            "last-around-another-type",
            vec![parts(&[(1, 1)]), smoothing, parts(&[(0, 2)])],
            [(0, 3), (0, 2), (0, 0)],
        ),
    ];
    for (name, chunks, tagged) in rows {
        add_faces(list, name, &chunks, tagged);
    }
}

/// "into the latest POLS": a later POLS has polygons of its own, counted from 0,
/// and what an earlier one was given stays. A later PNTS changes nothing.
fn add_latest_polygons(list: &mut Vec<Accepted>) {
    let kind = Kind::Lwo2;
    let (one, words) = points(1, QUARTER);
    let chunks = [
        name_list(kind, &NAMES),
        one.clone(),
        polygons(b"FACE", &[&[0], &[0, 0]]),
        parts(&[(0, 0)]),
        polygons(b"PTCH", &[&[0], &[0, 0, 0]]),
        tagging(&[(1, 0)]),
        parts(&[(0, 1), (1, 2)]),
        one,
        parts(&[(0, 2)]),
        polygons(b"FACE", &[&[0]]),
    ];
    let mut mesh = PlainMesh {
        points: words.repeat(2),
        ..PlainMesh::default()
    };
    mesh.add_polygon_of_part(1, &[0], 0, 1);
    mesh.add_polygon(1, &[0, 0], 0);
    mesh.add_polygon_of_part(2, &[0], 0, 3);
    mesh.add_polygon_of_part(2, &[0, 0, 0], 1, 3);
    mesh.add_polygon(1, &[1], 0);
    add_names(&mut mesh);
    add(list, kind, "part-of-latest-polygons", &chunks, mesh);
}

/// A layer's pairs are of its own polygons; TAGS are the file's.
fn add_layers(list: &mut Vec<Accepted>) {
    let kind = Kind::Lwo2;
    let (one, words) = points(1, HALF);
    let chunks = [
        name_list(kind, &NAMES),
        Layer::named(b"head").chunk(),
        one.clone(),
        polygons(b"FACE", &[&[0], &[0]]),
        parts(&[(1, 1)]),
        Layer::named(b"saddle").chunk(),
        one.clone(),
        polygons(b"FACE", &[&[0, 0]]),
        tagging(&[(0, 0)]),
        Layer::default().chunk(),
        one,
        polygons(b"PTCH", &[&[0]]),
        parts(&[(0, 2)]),
    ];
    let mut mesh = PlainMesh {
        points: words.repeat(3),
        ..PlainMesh::default()
    };
    mesh.add_polygon(1, &[0], 0);
    mesh.add_polygon_of_part(1, &[0], 0, 2);
    mesh.add_polygon(1, &[1, 1], 1);
    mesh.add_polygon_of_part(2, &[2], 0, 3);
    add_names(&mut mesh);
    add(list, kind, "part-of-layers", &chunks, mesh);
}

/// No pairs are none, with a polygon or without, and with names or without.
fn add_empty(list: &mut Vec<Accepted>) {
    let kept = [parts(&[(0, 1)]), parts(&[])];
    add_faces(list, "empty-at-last", &kept, [(0, 2), (0, 0), (0, 0)]);
    let (one, words) = points(1, HALF);
    for (name, entries) in [("no-polygons", &[][..]), ("no-names", &[&[0][..]])] {
        let chunks = [one.clone(), polygons(b"PTCH", entries), parts(&[])];
        let mut mesh = PlainMesh {
            points: words.clone(),
            ..PlainMesh::default()
        };
        for vertices in entries {
            mesh.add_polygon(2, vertices, 0);
        }
        let name = format!("part-empty-with-{name}");
        add(list, Kind::Lwo2, &name, &chunks, mesh);
    }
}

/// "the TAGS so far": they may come behind the polygons, and before the pairs.
fn add_tags_so_far(list: &mut Vec<Accepted>) {
    let kind = Kind::Lwo2;
    let (one, words) = points(1, HALF);
    let chunks = [
        one,
        polygons(b"FACE", &[&[0]]),
        parts(&[]),
        name_list(kind, &NAMES),
        parts(&[(0, 2)]),
    ];
    let mut mesh = PlainMesh {
        points: words,
        ..PlainMesh::default()
    };
    mesh.add_polygon_of_part(1, &[0], 0, 3);
    add_names(&mut mesh);
    add(list, kind, "part-with-tags-between", &chunks, mesh);
}

/// A name is a part's whether it has a SURF or not, and the record is the SURF's
/// whether a polygon has it as a part or not.
fn add_defined_names(list: &mut Vec<Accepted>) {
    let kind = Kind::Lwo2;
    let sides = [(*b"SIDE", u2(3))];
    let (one, words) = points(1, HALF);
    let chunks = [
        surf(kind, b"head", &sides),
        name_list(kind, &NAMES),
        one,
        polygons(b"FACE", &[&[0], &[0]]),
        parts(&[(0, 1), (1, 0)]),
        tagging(&[(1, 1)]),
        surf(kind, b"saddle", &[]),
    ];
    let mut mesh = PlainMesh {
        points: words,
        ..PlainMesh::default()
    };
    mesh.add_polygon_of_part(1, &[0], 0, 2);
    mesh.add_polygon_of_part(1, &[0], 2, 1);
    mesh.add_name(NAMES[0], &UNDEFINED);
    mesh.add_name(NAMES[1], &record(kind, &sides));
    mesh.add_name(NAMES[2], &record(kind, &[]));
    add(list, kind, "part-of-a-defined-name", &chunks, mesh);
}

/// "Other types: four type bytes are required and the rest isn't judged": those
/// that are near PART, with pairs that would be parts, and with pairs and bytes
/// that would be refused.
fn add_other_types(list: &mut Vec<Accepted>) {
    let types: [(&str, Tag); 8] = [
        ("smgp", *b"SMGP"),
        ("lowercase", *b"part"),
        ("paru", *b"PARU"),
        ("parr", *b"PARR"),
        ("pbrt", *b"PBRT"),
        ("qart", *b"QART"),
        ("par-and-blank", *b"PAR "),
        ("backwards", *b"TRAP"),
    ];
    for (name, kind) in types {
        let odd = join(&[&kind[..], &vx_short(9), &u2(9), &[255]]);
        let chunks = [
            parts(&[(0, 1)]),
            tagging_of(&kind, &[(0, 2), (1, 0)]),
            chunk(b"PTAG", &odd),
        ];
        let name = format!("near-type-{name}");
        add_faces(list, &name, &chunks, [(0, 2), (0, 0), (0, 0)]);
    }
}

/// A chunk of the tag PART is unlisted.
fn add_skipped(list: &mut Vec<Accepted>) {
    for kind in [Kind::Lwob, Kind::Lwo2] {
        let (one, words) = points(1, HALF);
        let pairs = join(&[vx_short(9), u2(9)]);
        let chunks = [one, chunk(b"PART", &pairs), chunk(b"PART", b"odd")];
        let mesh = PlainMesh {
            points: words,
            ..PlainMesh::default()
        };
        add(list, kind, "part-chunk", &chunks, mesh);
        list.last_mut().expect("a file").skipped = 2;
    }
}

/// "LWOB gives 0": there PTAG is unlisted, whatever it holds and wherever it
/// stands.
fn add_lwob(list: &mut Vec<Accepted>) {
    let kind = Kind::Lwob;
    for (name, tagging) in [
        ("pairs", parts(&[(0, 0), (1, 0)])),
        ("no-pairs", parts(&[])),
        ("wrong-pairs", parts(&[(9, 9)])),
        ("cut-type", chunk(b"PTAG", b"PAR")),
    ] {
        let (one, words) = points(1, HALF);
        let chunks = [
            tagging.clone(),
            one,
            name_list(kind, &[b"a"]),
            chunk(b"POLS", &entry(&[0], 1)),
            tagging.clone(),
            chunk(b"PCHS", &entry(&[0, 0], 1)),
            tagging,
        ];
        let mut mesh = PlainMesh {
            points: words,
            ..PlainMesh::default()
        };
        mesh.add_polygon(1, &[0], 1);
        mesh.add_polygon(2, &[0, 0], 1);
        mesh.add_name(b"a", &UNDEFINED);
        add(list, kind, &format!("part-{name}"), &chunks, mesh);
        list.last_mut().expect("a file").skipped = 3;
    }
}
