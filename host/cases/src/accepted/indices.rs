//! Indices in files that must be accepted: what request #107 leaves the long
//! form, and where the bytes of a small index in the long form are none, since
//! no VX is read there.

use super::{add, add_surf, name_list, points, polygons, record, surf, tagging};
use super::{Accepted, Sub, HALF, QUARTER};
use crate::assemble::{chunk, f4, join, string, sub_chunk, u2, vx, vx_long, Kind, Tag};
use crate::layer::Layer;
use crate::lwob;
use crate::plain::{PlainMesh, UNDEFINED};

pub fn add_indices(list: &mut Vec<Accepted>) {
    add_envelopes(list);
    add_other_types(list);
    add_blocks(list);
    add_unlisted_subs(list);
    add_skipped(list);
    add_floats(list);
    add_strings(list);
    add_lwob(list);
}

/// Indices at both ends of both forms.
const ENDS: [u32; 8] = [1, 255, 256, 65_279, 65_280, 65_281, 65_536, 0x00ff_ffff];

/// A colour or a level with this envelope.
fn value(tag: &Tag, envelope: Vec<u8>) -> Sub {
    let floats = if tag == b"COLR" { 3 } else { 1 };
    (*tag, join(&[f4(HALF).repeat(floats), envelope]))
}

const VALUES: [&Tag; 6] = [b"COLR", b"DIFF", b"LUMI", b"SPEC", b"REFL", b"TRAN"];

/// "an index below 65,280 is written in two bytes", any other in four: as the
/// envelope of every value of a SURF, be its name listed or not.
fn add_envelopes(list: &mut Vec<Accepted>) {
    let kind = Kind::Lwo2;
    for index in ENDS {
        let subs = VALUES.map(|tag| value(tag, vx(index)));
        add_surf(list, kind, &format!("envelopes-{index}"), &subs);
        let chunks = [surf(kind, b"nobody", &subs)];
        let name = format!("unlisted-envelopes-{index}");
        add(list, kind, &name, &chunks, PlainMesh::default());
    }
    // Each value by itself, the others with an envelope of two bytes.
    for (number, long) in VALUES.into_iter().enumerate() {
        let subs = VALUES.map(|tag| value(tag, vx(if tag == long { 65_280 } else { 0 })));
        add_surf(list, kind, &format!("long-envelope-{number}"), &subs);
    }
}

/// Pairs whose polygon number is small and in the long form.
fn long_pairs() -> Vec<u8> {
    join(&[vx_long(0), u2(0), vx_long(1), u2(0)])
}

/// "Other types: four type bytes are required and the rest isn't judged."
fn add_other_types(list: &mut Vec<Accepted>) {
    let (two, words) = points(2, HALF);
    let types: [(&str, Tag); 7] = [
        ("smgp", *b"SMGP"),
        ("colr", *b"COLR"),
        ("lowercase-part", *b"part"),
        ("paru", *b"PARU"),
        ("lowercase", *b"surf"),
        ("surg", *b"SURG"),
        ("index", [255, 0, 0, 0]),
    ];
    for (name, kind) in types {
        let mut mesh = PlainMesh {
            points: words.clone(),
            ..PlainMesh::default()
        };
        mesh.add_polygon(2, &[1, 0], 1);
        mesh.add_name(b"a", &UNDEFINED);
        let chunks = [
            name_list(Kind::Lwo2, &[b"a"]),
            two.clone(),
            polygons(b"PTCH", &[&[1, 0]]),
            chunk(b"PTAG", &join(&[&kind[..], &long_pairs()])),
            tagging(&[(0, 0)]),
        ];
        let name = format!("long-pairs-of-type-{name}");
        add(list, Kind::Lwo2, &name, &chunks, mesh);
    }
}

/// A float and a small index in the long form, as source 002 has it of many a
/// value that is not read.
fn long_value() -> Vec<u8> {
    join(&[f4(QUARTER), vx_long(0)])
}

/// "BLOK, only in SURF": its nesting is checked, its values are not read. Each
/// level holds a value with a small index in the long form.
fn add_blocks(list: &mut Vec<Accepted>) {
    let inner = |tag: &Tag| sub_chunk(tag, &long_value());
    for tag in [b"IMAP", b"PROC", b"GRAD", b"SHDR"] {
        let word = String::from_utf8_lossy(tag).to_lowercase();
        let bare = sub_chunk(tag, &string(b"x"));
        let holding = sub_chunk(tag, &join(&[&string(b"x"), &inner(b"DIFF")]));
        let mapping = sub_chunk(b"TMAP", &inner(b"TRAN"));
        for (place, body) in [
            ("header", holding),
            (
                "block",
                join(&[&bare[..], &inner(b"DIFF"), &inner(b"COLR")]),
            ),
            (
                "image",
                join(&[&bare[..], &sub_chunk(b"IMAG", &vx_long(1))]),
            ),
            ("mapping", join(&[bare, mapping])),
        ] {
            let name = format!("long-index-in-{word}-{place}");
            add_surf(list, Kind::Lwo2, &name, &[(*b"BLOK", body)]);
        }
    }
}

/// Sub-chunks of SURF that are not listed, of which source 002 gives a float
/// and a VX to most.
fn add_unlisted_subs(list: &mut Vec<Accepted>) {
    for tag in [
        b"GLOS", b"TRNL", b"BUMP", b"RIND", b"SHRP", b"CLRH", b"RFOP", b"TIMG", b"VLUM", b"ENVL",
    ] {
        let word = String::from_utf8_lossy(tag).to_lowercase();
        let subs = [(*tag, long_value()), (*b"SIDE", u2(3)), (*tag, vx_long(1))];
        let name = format!("long-index-in-{word}");
        add_surf(list, Kind::Lwo2, &name, &subs);
    }
}

/// "Unlisted tags are skipped": envelopes, clips and vertex maps too, whatever
/// indices they hold.
fn add_skipped(list: &mut Vec<Accepted>) {
    let (one, words) = points(1, HALF);
    for tag in [
        b"ENVL", b"CLIP", b"VMAP", b"VMAD", b"VMPA", b"PCHS", b"DIFF", b"ABCD",
    ] {
        let word = String::from_utf8_lossy(tag).to_lowercase();
        let skipped = chunk(tag, &join(&[vx_long(0), long_pairs(), long_value()]));
        let mut mesh = PlainMesh {
            points: words.clone(),
            ..PlainMesh::default()
        };
        mesh.add_polygon(1, &[0], 0);
        let face = polygons(b"FACE", &[&[0]]);
        let chunks = [skipped.clone(), one.clone(), skipped, face];
        let name = format!("long-indices-in-skipped-{word}");
        add(list, Kind::Lwo2, &name, &chunks, mesh);
        list.last_mut().expect("a file").skipped = 2;
    }
}

/// A float with these bits is finite, and no index: as a coordinate, a level and
/// in a layer's pivot.
fn add_floats(list: &mut Vec<Accepted>) {
    let kind = Kind::Lwo2;
    let bits = 0xff00_0005;
    let layer = Layer {
        pivot: [bits; 3],
        ..Layer::named(b"x")
    };
    let (one, words) = points(1, bits);
    let mesh = PlainMesh {
        points: words,
        ..PlainMesh::default()
    };
    add(
        list,
        kind,
        "floats-like-an-index",
        &[layer.chunk(), one],
        mesh,
    );
    let levels = [(*b"COLR", 3), (*b"SPEC", 1)];
    let subs = levels.map(|(tag, floats)| (tag, join(&[f4(bits).repeat(floats), vx(0)])));
    add_surf(list, kind, "levels-like-an-index", &subs);
}

/// A name may begin with the byte 255; it is a string.
fn add_strings(list: &mut Vec<Accepted>) {
    let kind = Kind::Lwo2;
    let name = b"\xff";
    let chunks = [name_list(kind, &[name]), surf(kind, name, &[])];
    let mut mesh = PlainMesh::default();
    mesh.add_name(name, &record(kind, &[]));
    add(list, kind, "name-like-an-index", &chunks, mesh);
}

/// LWOB has no VX: a colour with the bytes of one, and levels that begin with
/// 255.
fn add_lwob(list: &mut Vec<Accepted>) {
    let subs = [(*b"COLR", vx_long(5)), (*b"DIFF", u2(0xff00))];
    add_surf(list, Kind::Lwob, "values-like-an-index", &subs);
    let float = [(*b"VDIF", f4(0xff00_0005))];
    add_surf(list, Kind::Lwob, "float-like-an-index", &float);
    let (one, words) = points(1, HALF);
    let face = join(&[lwob::entry(&[0], -1), u2(0)]);
    let chunks = [
        one,
        name_list(Kind::Lwob, &[b"a"]),
        chunk(b"PTAG", &join(&[&b"SURF"[..], &long_pairs()])),
        chunk(b"PTAG", &join(&[&b"PART"[..], &long_pairs()])),
        chunk(b"POLS", &face),
    ];
    let mut mesh = PlainMesh {
        points: words,
        ..PlainMesh::default()
    };
    mesh.add_polygon(1, &[0], 1);
    mesh.add_name(b"a", &UNDEFINED);
    let name = "long-pairs-in-skipped-ptag";
    add(list, Kind::Lwob, name, &chunks, mesh);
    list.last_mut().expect("a file").skipped = 2;
}
