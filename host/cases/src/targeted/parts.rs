//! Parts beside surfaces, of request #111: "PART pairs are read like SURF pairs,
//! with the same checks and numbers 10 and 11". A fault of one list of pairs,
//! with good lists of the same polygons around it. Each list of pairs by itself
//! has its files where those of polygons, items, indices and places are.

use super::polygons::{pair, TAGGINGS};
use super::settings::{names, points, two_faces, Setting};
use super::{Catalogue, Fault};
use crate::assemble::{chunk, join, u2, vx_long, vx_short, Kind, Tag};

pub fn add(catalogue: &mut Catalogue) {
    for (word, kind) in TAGGINGS {
        add_after_good_ones(catalogue, word, kind);
        add_before_another(catalogue, word, kind);
        add_after_another_type(catalogue, word, kind);
        add_beside_tags(catalogue, word, kind);
    }
    add_types_in_a_row(catalogue);
}

fn fault(number: u64, offset: usize) -> Fault {
    Fault { number, offset }
}

/// Each fault of a pair, over two polygons and two names: what it is, the bytes
/// behind a PTAG's type, and what is told.
fn wrong_pairs() -> [(&'static str, Vec<u8>, Fault); 6] {
    [
        ("tag", join(&[vx_short(0), u2(2)]), fault(10, 14)),
        ("polygon", join(&[vx_short(2), u2(0)]), fault(11, 12)),
        ("cut-polygon", vec![0], fault(19, 12)),
        ("cut-tag", join(&[vx_short(1), vec![0]]), fault(19, 14)),
        ("missing-tag", vx_short(1), fault(19, 14)),
        ("long-polygon", join(&[vx_long(1), u2(1)]), fault(22, 12)),
    ]
}

fn tagging(kind: &Tag, pairs: &[u8]) -> Vec<u8> {
    chunk(b"PTAG", &join(&[&kind[..], pairs]))
}

/// Both polygons have a surface and a part already.
fn tagged() -> Setting {
    let pairs = join(&[vx_short(0), u2(1), vx_short(1), u2(0)]);
    Setting::lwo2_polygons()
        .with(tagging(b"SURF", &pairs))
        .with(tagging(b"PART", &pairs))
}

/// The last stands, so each list is judged whatever stands already.
fn add_after_good_ones(catalogue: &mut Catalogue, word: &str, kind: &Tag) {
    for (name, pairs, told) in wrong_pairs() {
        let name = format!("{word}{name}-of-tagged-polygons");
        catalogue.add_chunk(&name, &tagged(), &tagging(kind, &pairs), told);
    }
}

/// "chunks in file order": each fault before another one in a PTAG of the other
/// type.
fn add_before_another(catalogue: &mut Catalogue, word: &str, kind: &Tag) {
    let other = if kind == b"SURF" { b"PART" } else { b"SURF" };
    let mut laters = wrong_pairs();
    laters.rotate_left(1);
    for ((name, pairs, told), (later, later_pairs, _)) in wrong_pairs().into_iter().zip(laters) {
        let both = join(&[tagging(kind, &pairs), tagging(other, &later_pairs)]);
        let name = format!("order-{word}{name}-before-other-{later}");
        catalogue.add_chunk(&name, &Setting::lwo2_polygons(), &both, told);
    }
}

/// "Other types: four type bytes are required and the rest isn't judged": the
/// same pairs stand before under types that are near.
fn add_after_another_type(catalogue: &mut Catalogue, word: &str, kind: &Tag) {
    for (name, pairs, told) in wrong_pairs() {
        let near = [b"PARU", b"part", b"SURG", b"SMGP"];
        let before = near.iter().fold(Setting::lwo2_polygons(), |before, near| {
            before.with(tagging(near, &pairs))
        });
        let name = format!("{word}{name}-after-other-types");
        catalogue.add_chunk(&name, &before, &tagging(kind, &pairs), told);
    }
}

/// "the TAGS so far": a list that comes behind, or that is too short for one
/// pair of two.
fn add_beside_tags(catalogue: &mut Catalogue, word: &str, kind: &Tag) {
    let none = Setting::empty(Kind::Lwo2).with(points(3)).with(two_faces());
    let behind = join(&[pair(kind, 1, 1), names(b"TAGS"), pair(kind, 1, 1)]);
    let name = format!("{word}tag-before-and-after-tags");
    catalogue.add_chunk(&name, &none, &behind, fault(10, 14));
    let second = tagging(kind, &join(&[vx_short(0), u2(1), vx_short(0), u2(2)]));
    let name = format!("{word}second-tag-of-one-polygon");
    catalogue.add_chunk(&name, &tagged(), &second, fault(10, 18));
}

/// One PTAG has one type: a second one in it is a pair.
fn add_types_in_a_row(catalogue: &mut Catalogue) {
    let pairs = join(&[vx_short(0), u2(0)]);
    // The bytes of a type are a polygon number over 20,000.
    for (word, kind, second) in [("part", b"PART", b"SURF"), ("surf", b"SURF", b"PART")] {
        let both = tagging(kind, &join(&[&pairs[..], second, &pairs]));
        let name = format!("{word}-pairs-with-a-second-type");
        catalogue.add_chunk(&name, &Setting::lwo2_polygons(), &both, fault(11, 16));
    }
}
