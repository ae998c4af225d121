//! LAYR in files that must be accepted: what request #103 says of it in LWO2,
//! and that it stays an unlisted chunk in LWOB.

use super::{add, name_list, points, polygons, record, surf, tagging};
use super::{Accepted, HALF, QUARTER};
use crate::assemble::{chunk, u2, Kind};
use crate::layer::Layer;
use crate::lwob::entry;
use crate::plain::{PlainMesh, UNDEFINED};

pub fn add_layers(list: &mut Vec<Accepted>) {
    add_items(list);
    add_names(list);
    add_places(list);
    add_own_lists(list);
    add_several_lists(list);
    add_without_points(list);
    add_empty_lists(list);
    add_tags_between(list);
    add_surfaces(list);
    add_skipped(list);
    add_lwob(list);
}

/// Two points behind a layer, and what they give.
fn add_one(list: &mut Vec<Accepted>, name: &str, layer: &Layer) {
    let (two, words) = points(2, HALF);
    let mesh = PlainMesh {
        points: words,
        ..PlainMesh::default()
    };
    let name = format!("layer-{name}");
    add(list, Kind::Lwo2, &name, &[layer.chunk(), two], mesh);
}

/// A change to one item of a layer.
type Change = fn(&mut Layer);

/// Number, flags and parent are not judged, and the pivot is "of three finite
/// floats": each at its bounds. Source 002: the parent "can be -1 or missing".
fn add_items(list: &mut Vec<Accepted>) {
    let rows: [(&str, Change); 7] = [
        ("of-zeros", |_| {}),
        ("number-highest", |layer| layer.number = u16::MAX),
        ("flags-highest", |layer| layer.flags = u16::MAX),
        ("pivot-largest", |layer| {
            layer.pivot = [0x7f7f_ffff, 0xff7f_ffff, 0x7f7f_ffff]
        }),
        ("pivot-smallest", |layer| {
            layer.pivot = [0x8000_0000, 0x0000_0001, 0x8000_0001]
        }),
        ("parent-0", |layer| layer.parent = Some(0)),
        ("parent-highest", |layer| layer.parent = Some(u16::MAX)),
    ];
    for (name, change) in rows {
        let mut layer = Layer::default();
        change(&mut layer);
        add_one(list, name, &layer);
    }
}

/// 13 is "in TAGS or SRFS only", so a layer's name may be over 255 bytes. It
/// has "a parent U2 or nothing after it".
fn add_names(list: &mut Vec<Accepted>) {
    for length in [1, 2, 3, 254, 255, 256, 257, 700] {
        for (word, parent) in [("alone", None), ("with-parent", Some(1))] {
            let layer = Layer {
                parent,
                ..Layer::named(&vec![b'n'; length])
            };
            add_one(list, &format!("name-of-{length}-{word}"), &layer);
        }
    }
}

/// One face with a name and a SURF, and the mesh of them.
fn one_face() -> ([Vec<u8>; 5], PlainMesh) {
    let kind = Kind::Lwo2;
    let (two, words) = points(2, HALF);
    let chunks = [
        name_list(kind, &[b"a"]),
        two,
        polygons(b"FACE", &[&[1, 0]]),
        tagging(&[(0, 0)]),
        surf(kind, b"a", &[]),
    ];
    let mut mesh = PlainMesh {
        points: words,
        ..PlainMesh::default()
    };
    mesh.add_polygon(1, &[1, 0], 1);
    mesh.add_name(b"a", &record(kind, &[]));
    (chunks, mesh)
}

/// "The mesh doesn't keep the layer": one or three LAYR of one name, which is
/// a surface's too, wherever they empty nothing that is needed.
fn add_places(list: &mut Vec<Accepted>) {
    let (chunks, mesh) = one_face();
    for at in [0, 1, 4, 5] {
        for count in [1, 3] {
            let layers = vec![Layer::named(b"a").chunk(); count];
            let (front, behind) = chunks.split_at(at);
            let all = [front, &layers, behind].concat();
            let name = format!("layer-at-{at}-{count}-times");
            add(list, Kind::Lwo2, &name, &all, mesh.clone());
        }
    }
}

/// A PTAG of another type.
fn other_tagging(kind: &[u8; 4]) -> Vec<u8> {
    chunk(b"PTAG", &[&kind[..], &[0; 4]].concat())
}

/// Three layers, each with its own points, polygons and taggings: vertices
/// count from the file's first point, pairs from the layer's latest POLS, and
/// tags go by the file's TAGS.
fn add_own_lists(list: &mut Vec<Accepted>) {
    let kind = Kind::Lwo2;
    let (two, two_words) = points(2, HALF);
    let (three, three_words) = points(3, QUARTER);
    let child = Layer {
        parent: Some(0),
        ..Layer::named(b"Lid")
    };
    let chunks = [
        name_list(kind, &[b"a", b"b"]),
        Layer::named(b"Body").chunk(),
        two.clone(),
        polygons(b"FACE", &[&[0, 1], &[1]]),
        tagging(&[(1, 1)]),
        other_tagging(b"PARU"),
        child.chunk(),
        three,
        polygons(b"PTCH", &[&[2], &[0, 1, 2]]),
        other_tagging(b"SMGP"),
        tagging(&[(0, 0), (1, 1), (0, 1)]),
        Layer::default().chunk(),
        two,
        polygons(b"FACE", &[&[0, 0]]),
        tagging(&[(0, 0)]),
    ];
    let mut mesh = PlainMesh {
        points: [two_words.clone(), three_words, two_words].concat(),
        ..PlainMesh::default()
    };
    mesh.add_polygon(1, &[0, 1], 0);
    mesh.add_polygon(1, &[1], 2);
    mesh.add_polygon(2, &[4], 2);
    mesh.add_polygon(2, &[2, 3, 4], 2);
    mesh.add_polygon(1, &[5, 5], 1);
    mesh.add_name(b"a", &UNDEFINED);
    mesh.add_name(b"b", &UNDEFINED);
    add(list, kind, "layers-with-own-lists", &chunks, mesh);
}

/// Data before the first LAYR, and several lists in one layer: the latest of
/// each since LAYR counts.
fn add_several_lists(list: &mut Vec<Accepted>) {
    let kind = Kind::Lwo2;
    let (one, one_words) = points(1, HALF);
    let (two, two_words) = points(2, QUARTER);
    let chunks = [
        one.clone(),
        polygons(b"FACE", &[&[0]]),
        name_list(kind, &[b"a"]),
        Layer::named(b"x").chunk(),
        one,
        two.clone(),
        polygons(b"FACE", &[&[1]]),
        polygons(b"PTCH", &[&[0], &[1, 1]]),
        two,
        tagging(&[(1, 0)]),
        polygons(b"FACE", &[&[1, 0]]),
    ];
    let mut mesh = PlainMesh {
        points: [one_words.clone(), one_words, two_words.clone(), two_words].concat(),
        ..PlainMesh::default()
    };
    mesh.add_polygon(1, &[0], 0);
    mesh.add_polygon(1, &[3], 0);
    mesh.add_polygon(2, &[2], 0);
    mesh.add_polygon(2, &[3, 3], 1);
    mesh.add_polygon(1, &[5, 4], 0);
    mesh.add_name(b"a", &UNDEFINED);
    add(list, kind, "layer-with-several-lists", &chunks, mesh);
}

/// Layers without points, and points without polygons.
fn add_without_points(list: &mut Vec<Accepted>) {
    let (one, words) = points(1, HALF);
    let chunks = [
        Layer::named(b"empty").chunk(),
        Layer::named(b"points").chunk(),
        one.clone(),
        Layer::named(b"empty").chunk(),
        Layer::named(b"face").chunk(),
        one,
        polygons(b"FACE", &[&[0, 0]]),
    ];
    let mut mesh = PlainMesh {
        points: words.repeat(2),
        ..PlainMesh::default()
    };
    mesh.add_polygon(1, &[1, 1], 0);
    add(list, Kind::Lwo2, "layers-without-points", &chunks, mesh);
}

/// Empty lists are there: after LAYR too they serve a POLS without entries and
/// a PTAG without pairs.
fn add_empty_lists(list: &mut Vec<Accepted>) {
    let (chunks, mesh) = one_face();
    let later = [
        Layer::default().chunk(),
        points(0, 0).0,
        polygons(b"PTCH", &[]),
        tagging(&[]),
        other_tagging(b"PARU"),
    ];
    let all = [&chunks[..], &later].concat();
    add(list, Kind::Lwo2, "layer-with-empty-lists", &all, mesh);
}

/// TAGS are the file's: between two layers, they serve the later one.
fn add_tags_between(list: &mut Vec<Accepted>) {
    let kind = Kind::Lwo2;
    let (one, words) = points(1, HALF);
    let face = polygons(b"FACE", &[&[0]]);
    let chunks = [
        Layer::named(b"a").chunk(),
        one.clone(),
        face.clone(),
        tagging(&[]),
        name_list(kind, &[b"a", b"b"]),
        Layer::named(b"b").chunk(),
        one,
        face,
        tagging(&[(0, 1)]),
    ];
    let mut mesh = PlainMesh {
        points: words.repeat(2),
        ..PlainMesh::default()
    };
    mesh.add_polygon(1, &[0], 0);
    mesh.add_polygon(1, &[1], 2);
    mesh.add_name(b"a", &UNDEFINED);
    mesh.add_name(b"b", &UNDEFINED);
    add(list, kind, "layers-with-tags-between", &chunks, mesh);
}

/// SURF chunks are the file's: before, between and after layers "the last SURF
/// of a name stands".
fn add_surfaces(list: &mut Vec<Accepted>) {
    let kind = Kind::Lwo2;
    let sides = [(*b"SIDE", u2(3))];
    let chunks = [
        surf(kind, b"a", &sides),
        surf(kind, b"b", &sides),
        Layer::named(b"c").chunk(),
        name_list(kind, &[b"a", b"b", b"c"]),
        surf(kind, b"b", &[]),
        Layer::named(b"a").chunk(),
        surf(kind, b"c", &sides),
    ];
    let mut mesh = PlainMesh::default();
    mesh.add_name(b"a", &record(kind, &sides));
    mesh.add_name(b"b", &record(kind, &[]));
    mesh.add_name(b"c", &record(kind, &sides));
    add(list, kind, "layers-and-surfaces", &chunks, mesh);
}

/// "In LWO2 LAYR is no longer skipped": of three chunks the unlisted one is.
fn add_skipped(list: &mut Vec<Accepted>) {
    let layer = Layer::named(b"x").chunk();
    let chunks = [layer.clone(), chunk(b"VMAP", b"odd"), layer];
    let mesh = PlainMesh::default();
    add(list, Kind::Lwo2, "layers-and-skipped", &chunks, mesh);
    list.last_mut().expect("a file").skipped = 1;
}

/// "in LWOB it stays both" skipped and unlisted: any body will do, and POLS and
/// PCHS use the points before it.
fn add_lwob(list: &mut Vec<Accepted>) {
    let kind = Kind::Lwob;
    let not_finite = Layer {
        pivot: [0x7fc0_0000; 3],
        ..Layer::named(b"x")
    };
    for (name, body) in [
        ("good", Layer::named(b"a").body()),
        ("not-finite", not_finite.body()),
        ("odd", b"odd".to_vec()),
        ("empty", Vec::new()),
    ] {
        let layer = chunk(b"LAYR", &body);
        let (two, words) = points(2, HALF);
        let chunks = [
            two,
            layer.clone(),
            name_list(kind, &[b"a"]),
            layer.clone(),
            chunk(b"POLS", &entry(&[0, 1], 1)),
            layer,
            chunk(b"PCHS", &entry(&[1], 1)),
        ];
        let mut mesh = PlainMesh {
            points: words,
            ..PlainMesh::default()
        };
        mesh.add_polygon(1, &[0, 1], 1);
        mesh.add_polygon(2, &[1], 1);
        mesh.add_name(b"a", &UNDEFINED);
        add(list, kind, &format!("layer-{name}"), &chunks, mesh);
        list.last_mut().expect("a file").skipped = 3;
    }
}
