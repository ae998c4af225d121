//! 5: "something that must come earlier is missing, or a single chunk comes
//! twice".

use super::polygons::TAGGINGS;
use super::settings::{layer, names, points, two_faces, Setting};
use super::{Catalogue, Fault};
use crate::assemble::{chunk, join, u2, vx, Kind};
use crate::lwob::entry;

pub fn add(catalogue: &mut Catalogue) {
    add_lwob_twice(catalogue);
    add_lwob_polygons(catalogue);
    add_lwo2(catalogue);
    add_since_layer(catalogue);
    add_lwob_layer(catalogue);
}

/// The chunk itself is at fault, so its header is.
fn fault() -> Fault {
    Fault {
        number: 5,
        offset: 0,
    }
}

/// "PNTS: 12 bytes a point. SRFS: strings. Each at most once (5, house)."
fn add_lwob_twice(catalogue: &mut Catalogue) {
    let ready = Setting::lwob();
    catalogue.add_chunk("pnts-twice", &ready, &points(2), fault());
    catalogue.add_chunk("pnts-twice-empty", &ready, &points(0), fault());
    catalogue.add_chunk("srfs-twice", &ready, &names(b"SRFS"), fault());
    catalogue.add_chunk("srfs-twice-empty", &ready, &chunk(b"SRFS", &[]), fault());
    let empty_points = Setting::empty(Kind::Lwob).with(points(0));
    catalogue.add_chunk("pnts-after-empty", &empty_points, &points(1), fault());
    let empty_names = Setting::empty(Kind::Lwob).with(chunk(b"SRFS", &[]));
    catalogue.add_chunk("srfs-after-empty", &empty_names, &names(b"SRFS"), fault());
}

/// "POLS, PCHS: both PNTS and SRFS must come earlier", even for empty ones.
fn add_lwob_polygons(catalogue: &mut Catalogue) {
    let none = Setting::empty(Kind::Lwob);
    let only_points = none.clone().with(points(3));
    let only_names = none.clone().with(names(b"SRFS"));
    // LWO2's list of names is not listed here.
    let wrong_names = only_points.clone().with(names(b"TAGS"));
    for (word, tag) in [("pols", b"POLS"), ("pchs", b"PCHS")] {
        for (body_name, body) in [("empty", Vec::new()), ("full", entry(&[0, 1], 1))] {
            let polygons = chunk(tag, &body);
            for (name, before) in [
                ("nothing", &none),
                ("only-pnts", &only_points),
                ("only-srfs", &only_names),
                ("tags-for-srfs", &wrong_names),
            ] {
                let name = format!("{word}-{body_name}-after-{name}");
                catalogue.add_chunk(&name, before, &polygons, fault());
            }
        }
    }
    let too_late = join(&[chunk(b"POLS", &[]), names(b"SRFS")]);
    catalogue.add_chunk("srfs-too-late", &only_points, &too_late, fault());
    let too_late = join(&[chunk(b"PCHS", &[]), points(3)]);
    catalogue.add_chunk("pnts-too-late", &only_names, &too_late, fault());
}

/// "TAGS: strings, at most once (house)", "POLS needs an earlier PNTS", "PTAG:
/// needs an earlier POLS (5)", whatever its type.
fn add_lwo2(catalogue: &mut Catalogue) {
    let none = Setting::empty(Kind::Lwo2);
    let ready = Setting::lwo2();
    catalogue.add_chunk("tags-twice", &ready, &names(b"TAGS"), fault());
    catalogue.add_chunk("tags-twice-empty", &ready, &chunk(b"TAGS", &[]), fault());
    let empty_names = none.clone().with(chunk(b"TAGS", &[]));
    catalogue.add_chunk("tags-after-empty", &empty_names, &names(b"TAGS"), fault());

    let only_names = none.clone().with(names(b"TAGS"));
    for (name, polygons) in some_polygons() {
        let name = format!("pols-{name}-without-pnts");
        catalogue.add_chunk(&name, &only_names, &polygons, fault());
    }
    catalogue.add_chunk("pols-without-pnts", &none, &two_faces(), fault());

    for (name, tagging) in some_taggings() {
        let name = format!("ptag-{name}-without-pols");
        catalogue.add_chunk(&name, &ready, &tagging, fault());
    }
    for (word, kind) in TAGGINGS {
        let too_late = join(&[chunk(b"PTAG", kind), two_faces()]);
        let name = format!("{word}pols-too-late");
        catalogue.add_chunk(&name, &ready, &too_late, fault());
    }
}

/// POLS chunks, good or not: 5 is judged before the body.
fn some_polygons() -> [(&'static str, Vec<u8>); 3] {
    [("empty", &b""[..]), ("type", b"FACE"), ("curv", b"CURV")]
        .map(|(name, body)| (name, chunk(b"POLS", body)))
}

/// PTAG chunks of several types, good or not.
fn some_taggings() -> [(&'static str, Vec<u8>); 7] {
    let [pair, part_pair] = [b"SURF", b"PART"].map(|kind| join(&[&kind[..], &vx(0), &u2(0)]));
    [
        ("empty", &b""[..]),
        ("cut-type", b"SU"),
        ("type", b"SURF"),
        ("part", b"PART"),
        ("smgp", b"SMGP"),
        ("pair", &pair),
        ("part-pair", &part_pair),
    ]
    .map(|(name, body)| (name, chunk(b"PTAG", body)))
}

/// #103: "POLS with no PNTS since it, or PTAG with no POLS since it, is 5",
/// whatever came before LAYR, which may come several times.
fn add_since_layer(catalogue: &mut Catalogue) {
    let first = Setting::empty(Kind::Lwo2).with(layer());
    let with_points = Setting::lwo2().with(layer());
    let with_polygons = Setting::lwo2_layer();
    let in_a_row = Setting::lwo2_layer().with(layer()).with(layer());
    let whole = with_points.clone().with(points(3)).with(two_faces());
    let after_whole = whole.with(layer());
    for (name, before) in [
        ("first", &first),
        ("after-pnts", &with_points),
        ("after-pols", &with_polygons),
        ("in-a-row", &in_a_row),
        ("after-a-layer", &after_whole),
    ] {
        let full = ("full", two_faces());
        for (body, polygons) in some_polygons().into_iter().chain([full]) {
            let name = format!("layer-{name}-pols-{body}");
            catalogue.add_chunk(&name, before, &polygons, fault());
        }
        let with_new_points = before.clone().with(points(3));
        for (body, tagging) in some_taggings() {
            let name = format!("layer-{name}-ptag-{body}");
            catalogue.add_chunk(&name, before, &tagging, fault());
            let name = format!("{name}-after-new-pnts");
            catalogue.add_chunk(&name, &with_new_points, &tagging, fault());
        }
    }
    let tags = names(b"TAGS");
    catalogue.add_chunk("layer-tags-twice", &with_points, &tags, fault());
}

/// In LWOB LAYR empties nothing: PNTS and SRFS before it still count, and what
/// was missing is still missing.
fn add_lwob_layer(catalogue: &mut Catalogue) {
    let ready = Setting::lwob().with(layer());
    catalogue.add_chunk("layer-pnts-twice", &ready, &points(1), fault());
    catalogue.add_chunk("layer-srfs-twice", &ready, &names(b"SRFS"), fault());
    let only_names = Setting::empty(Kind::Lwob).with(names(b"SRFS"));
    let without_points = only_names.with(layer());
    let polygons = chunk(b"POLS", &entry(&[0], 1));
    catalogue.add_chunk("layer-pols", &without_points, &polygons, fault());
}
