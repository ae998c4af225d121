//! Where a fault lies: "the offset of the first byte of the header, item or
//! string at fault; a wrong body length, a bad pad or BLOK's 15 is its own
//! header's fault". In these files a reader that knows only its chunk, its
//! first sub-chunk or the byte where it stopped would tell another place: the
//! fault lies in a later chunk, sub-chunk or block, between good ones, or
//! where nothing is left.

use super::headers::{surf, surf_front};
use super::polygons::TAGGINGS;
use super::settings::Setting;
use super::surfaces::{FIXED, VALUES};
use super::{Catalogue, Fault, KINDS};
use crate::assemble::{chunk, f4, i2, join, string, sub_chunk, u2, vx_long, vx_short, Kind, Tag};

/// The bytes of a chunk's header, and of a sub-chunk's.
const CHUNK: usize = 8;
const SUB: usize = 6;

/// 1.0.
const ONE: u32 = 0x3f80_0000;

pub fn add(catalogue: &mut Catalogue) {
    add_missing_values(catalogue);
    add_missing_block_strings(catalogue);
    add_missing_before_a_chunk(catalogue);
    add_names_in_the_middle(catalogue);
    add_strings_in_the_middle(catalogue);
    add_second_of_a_tag(catalogue);
    add_third_surfaces(catalogue);
    add_pads_in_the_middle(catalogue);
    add_later_blocks(catalogue);
    add_later_lists(catalogue);
    for (word, kind) in TAGGINGS {
        add_later_pairs(catalogue, word, kind);
    }
}

fn fault(number: u64, offset: usize) -> Fault {
    Fault { number, offset }
}

/// Where the first sub-chunk of a SURF lies.
fn first_sub(kind: Kind) -> usize {
    CHUNK + surf_front(kind).len()
}

/// An item that is missing altogether, in the last sub-chunk of the last
/// chunk: where it would begin, the file ends.
fn add_missing_values(catalogue: &mut Catalogue) {
    for (word, tag, floats) in VALUES {
        for there in 0..=floats {
            let value = sub_chunk(tag, &f4(ONE).repeat(there));
            let last = surf(Kind::Lwo2, &[&value]);
            let offset = first_sub(Kind::Lwo2) + SUB + 4 * there;
            let name = format!("place-{word}-ends-after-{there}");
            catalogue.add_chunk(&name, &Setting::lwo2(), &last, fault(19, offset));
        }
    }
}

const BLOCK_HEADERS: [(&str, &Tag); 4] = [
    ("imap", b"IMAP"),
    ("proc", b"PROC"),
    ("grad", b"GRAD"),
    ("shdr", b"SHDR"),
];

/// The same for the string that a block header holds.
fn add_missing_block_strings(catalogue: &mut Catalogue) {
    for (word, tag) in BLOCK_HEADERS {
        let block = sub_chunk(b"BLOK", &sub_chunk(tag, &[]));
        let last = surf(Kind::Lwo2, &[&block]);
        let offset = first_sub(Kind::Lwo2) + SUB + SUB;
        let name = format!("place-{word}-without-string");
        catalogue.add_chunk(&name, &Setting::lwo2(), &last, fault(20, offset));
    }
}

/// What is missing would begin where the next chunk begins, which is not at
/// fault.
fn add_missing_before_a_chunk(catalogue: &mut Catalogue) {
    let lwob = Setting::lwob();
    let lwo2 = Setting::lwo2();
    let tagged = Setting::lwo2_polygons();
    let face = [u2(1), u2(0)];
    let with_details = [u2(1), u2(0), i2(-1)];
    let open_detail = [u2(1), u2(0), i2(-1), u2(1)];
    let corner = join(&[&b"FACE"[..], &u2(1)]);
    let pair = join(&[&b"SURF"[..], &vx_short(0)]);
    let part_pair = join(&[&b"PART"[..], &vx_short(0)]);
    let level = sub_chunk(b"DIFF", &[]);
    let block = sub_chunk(b"BLOK", &sub_chunk(b"GRAD", &[]));
    let rows: Vec<(&str, &Setting, Vec<u8>, u64)> = vec![
        ("surface", &lwob, chunk(b"POLS", &join(&face)), 19),
        ("details", &lwob, chunk(b"POLS", &join(&with_details)), 19),
        ("detail", &lwob, chunk(b"POLS", &join(&open_detail)), 19),
        ("patch-surface", &lwob, chunk(b"PCHS", &join(&face)), 19),
        ("patch-vertex", &lwob, chunk(b"PCHS", &u2(1)), 19),
        ("surf-name", &lwob, chunk(b"SURF", &[]), 20),
        ("polygon-type", &lwo2, chunk(b"POLS", &[]), 19),
        ("vertex", &lwo2, chunk(b"POLS", &corner), 19),
        ("tagging-type", &tagged, chunk(b"PTAG", &[]), 19),
        ("tag", &tagged, chunk(b"PTAG", &pair), 19),
        ("part-tag", &tagged, chunk(b"PTAG", &part_pair), 19),
        ("surf-name", &lwo2, chunk(b"SURF", &[]), 20),
        ("surf-source", &lwo2, chunk(b"SURF", &string(b"a")), 20),
        ("level", &lwo2, surf(Kind::Lwo2, &[&level]), 19),
        ("block-string", &lwo2, surf(Kind::Lwo2, &[&block]), 20),
        ("layer-number", &lwo2, chunk(b"LAYR", &[]), 19),
        ("layer-pivot", &lwo2, chunk(b"LAYR", &[0; 4]), 19),
        ("layer-name", &lwo2, chunk(b"LAYR", &[0; 16]), 20),
    ];
    let next = chunk(b"NEXT", b"odd");
    for (name, before, short, number) in rows {
        let name = format!("place-{name}-missing-before-a-chunk");
        let offset = short.len();
        let both = join(&[&short, &next]);
        catalogue.add_chunk(&name, before, &both, fault(number, offset));
    }
}

/// Strings whose pad is not zero.
const BAD_PADS: [(&str, &[u8]); 2] = [("of-two", b"xy\0\x01"), ("of-none", b"\0x")];

/// A bad pad among the good names of a list.
fn add_names_in_the_middle(catalogue: &mut Catalogue) {
    let names = [string(b"a"), string(b"bcd"), string(b"ef")];
    for (kind, tag) in [(Kind::Lwob, b"SRFS"), (Kind::Lwo2, b"TAGS")] {
        for before in 0..names.len() {
            for (word, bad) in BAD_PADS {
                let (front, behind) = (join(&names[..before]), join(&names[before..]));
                let list = chunk(tag, &join(&[&front[..], bad, &behind]));
                let name = format!("place-name-{before}-{word}-bad-pad");
                let none = Setting::empty(kind);
                let offset = CHUNK + front.len();
                catalogue.add_chunk(&name, &none, &list, fault(20, offset));
            }
        }
    }
}

/// A bad pad of each string of a SURF, with good bytes behind.
fn add_strings_in_the_middle(catalogue: &mut Catalogue) {
    let sides = sub_chunk(b"SIDE", &u2(1));
    let inner = sub_chunk(b"CHAN", b"COLR");
    for (word, bad) in BAD_PADS {
        let named = chunk(b"SURF", &join(&[bad, &string(b""), &sides]));
        let (name, offset) = (format!("place-surf-name-{word}-bad-pad"), CHUNK);
        catalogue.add_chunk(&name, &Setting::lwo2(), &named, fault(20, offset));

        let front = string(b"bcd");
        let leaning = chunk(b"SURF", &join(&[&front[..], bad, &sides]));
        let name = format!("place-surf-source-{word}-bad-pad");
        let offset = CHUNK + front.len();
        catalogue.add_chunk(&name, &Setting::lwo2(), &leaning, fault(20, offset));

        let header = sub_chunk(b"IMAP", &join(&[bad, &inner[..]]));
        let block = sub_chunk(b"BLOK", &header);
        let blocked = surf(Kind::Lwo2, &[&sides, &block, &sides]);
        let name = format!("place-block-string-{word}-bad-pad");
        let offset = first_sub(Kind::Lwo2) + sides.len() + SUB + SUB;
        catalogue.add_chunk(&name, &Setting::lwo2(), &blocked, fault(20, offset));
    }
}

/// The second sub-chunk of a tag is at fault, the first is good.
fn add_second_of_a_tag(catalogue: &mut Catalogue) {
    for (word, tag, right) in FIXED {
        let first = sub_chunk(tag, &vec![0; right]);
        let second = sub_chunk(tag, &vec![0; right + 2]);
        let both = surf(Kind::Lwob, &[&first, &second]);
        let offset = first_sub(Kind::Lwob) + first.len();
        let name = format!("place-second-{word}-too-long");
        catalogue.add_chunk(&name, &Setting::lwob(), &both, fault(6, offset));
    }
    let first = sub_chunk(b"SIDE", &u2(3));
    let header = first_sub(Kind::Lwo2) + first.len();
    let long = sub_chunk(b"SIDE", &[0, 3, 0, 3]);
    let both = surf(Kind::Lwo2, &[&first, &long]);
    let name = "place-second-side-too-long";
    catalogue.add_chunk(name, &Setting::lwo2(), &both, fault(6, header));
    let other = sub_chunk(b"SIDE", &u2(2));
    let both = surf(Kind::Lwo2, &[&first, &other]);
    let name = "place-second-side-another";
    catalogue.add_chunk(name, &Setting::lwo2(), &both, fault(15, header + SUB));
    for (word, tag, floats) in VALUES {
        add_second_value(catalogue, word, tag, floats);
    }
}

/// The same for LWO2's values: bytes left over in the second are its header's
/// fault, a missing or cut envelope is an item's.
fn add_second_value(catalogue: &mut Catalogue, word: &str, tag: &Tag, floats: usize) {
    let levels = f4(ONE).repeat(floats);
    let first = sub_chunk(tag, &join(&[&levels[..], &vx_short(0)]));
    let header = first_sub(Kind::Lwo2) + first.len();
    let envelope = header + SUB + levels.len();
    let long = join(&[vx_short(0), vec![0; 2]]);
    for (what, end, fault) in [
        ("left-over", &long[..], fault(6, header)),
        ("left-over-by-one", &long[..3], fault(6, header)),
        ("without-envelope", &[], fault(19, envelope)),
        ("long-envelope-cut", &[255, 0, 0], fault(19, envelope)),
    ] {
        let second = sub_chunk(tag, &join(&[&levels[..], end]));
        let both = surf(Kind::Lwo2, &[&first, &second]);
        let name = format!("place-second-{word}-{what}");
        catalogue.add_chunk(&name, &Setting::lwo2(), &both, fault);
    }
}

/// Two good SURF chunks stand before the one at fault.
fn add_third_surfaces(catalogue: &mut Catalogue) {
    for kind in KINDS {
        let good = surf(kind, &[&sub_chunk(b"GLOS", b"odd")]);
        let before = Setting::ready(kind).with(good.clone()).with(good);
        for (name, third, fault) in third_surfaces(kind) {
            let name = format!("place-third-surf-{name}");
            catalogue.add_chunk(&name, &before, &third, fault);
        }
    }
}

fn third_surfaces(kind: Kind) -> Vec<(&'static str, Vec<u8>, Fault)> {
    let header = first_sub(kind);
    let open = chunk(b"SURF", b"open");
    let cut = surf(kind, &[b"cut"]);
    let (not_finite, level) = match kind {
        Kind::Lwob => (
            sub_chunk(b"VTRN", &f4(0x7f80_0000)),
            sub_chunk(b"TRAN", &[0; 4]),
        ),
        Kind::Lwo2 => (
            sub_chunk(b"TRAN", &join(&[f4(0x7f80_0000), vx_short(0)])),
            sub_chunk(b"TRAN", &[0; 8]),
        ),
    };
    let mut rows = vec![
        ("name-open", open, fault(20, CHUNK)),
        ("header-cut", cut, fault(4, header)),
        (
            "not-finite",
            surf(kind, &[&not_finite]),
            fault(7, header + SUB),
        ),
        ("too-long", surf(kind, &[&level]), fault(6, header)),
    ];
    if kind == Kind::Lwo2 {
        let short = sub_chunk(b"TRAN", &[0; 3]);
        let side = sub_chunk(b"SIDE", &u2(0));
        let block = sub_chunk(b"BLOK", &[]);
        rows.extend([
            ("float-cut", surf(kind, &[&short]), fault(19, header + SUB)),
            ("side", surf(kind, &[&side]), fault(15, header + SUB)),
            ("block-empty", surf(kind, &[&block]), fault(15, header)),
        ]);
    }
    rows
}

/// A bad pad at each level, with a good neighbour on both sides.
fn add_pads_in_the_middle(catalogue: &mut Catalogue) {
    let good = sub_chunk(b"GLOS", b"odd");
    let mut bad = sub_chunk(b"ABCD", b"odd");
    *bad.last_mut().expect("a pad byte") = 1;
    let three = join(&[&good, &bad, &good]);
    for kind in KINDS {
        let mut top = chunk(b"ABCD", b"odd");
        *top.last_mut().expect("a pad byte") = 1;
        let top = join(&[top, chunk(b"NEXT", &[])]);
        let name = "place-pad-of-a-chunk";
        catalogue.add_chunk(name, &Setting::ready(kind), &top, fault(4, 0));
        let name = "place-pad-at-level-2";
        let offset = first_sub(kind) + good.len();
        let second = surf(kind, &[&three]);
        catalogue.add_chunk(name, &Setting::ready(kind), &second, fault(4, offset));
    }
    let header = sub_chunk(b"SHDR", &string(b"x"));
    let holding = sub_chunk(b"SHDR", &join(&[&string(b"x"), &three]));
    let mapping = sub_chunk(b"TMAP", &three);
    // The bad one lies so far behind the block's first sub-chunk.
    for (name, body, inside) in [
        ("level-3", join(&[&header, &three]), header.len()),
        ("level-4-header", holding, SUB + 2),
        (
            "level-4-mapping",
            join(&[&header, &mapping]),
            header.len() + SUB,
        ),
    ] {
        let name = format!("place-pad-at-{name}");
        let block = sub_chunk(b"BLOK", &body);
        let nested = surf(Kind::Lwo2, &[&block, &good]);
        let offset = first_sub(Kind::Lwo2) + SUB + inside + good.len();
        catalogue.add_chunk(&name, &Setting::lwo2(), &nested, fault(4, offset));
    }
}

/// What is wrong with a block lies in that block, after one and after two good
/// ones.
fn add_later_blocks(catalogue: &mut Catalogue) {
    let header = sub_chunk(b"IMAP", &string(b"x"));
    let mapping = sub_chunk(b"TMAP", &sub_chunk(b"SIZE", &[]));
    let good = sub_chunk(b"BLOK", &join(&[&header, &mapping]));
    let behind = sub_chunk(b"SMAN", &[0; 4]);
    let cut_inside = sub_chunk(b"PROC", &join(&[&string(b"x")[..], b"cut"]));
    // Each with where the fault lies in the block.
    let rows: Vec<(&str, Vec<u8>, Fault)> = vec![
        ("empty", Vec::new(), fault(15, 0)),
        ("another-first", mapping.clone(), fault(15, 0)),
        ("another-in-front", join(&[&mapping, &header]), fault(15, 0)),
        ("header-cut", b"IMA".to_vec(), fault(4, SUB)),
        (
            "string-open",
            sub_chunk(b"IMAP", b"xy"),
            fault(20, SUB + SUB),
        ),
        (
            "string-missing",
            sub_chunk(b"GRAD", &[]),
            fault(20, SUB + SUB),
        ),
        ("inside-cut", cut_inside, fault(4, SUB + SUB + 2)),
        (
            "mapping-cut",
            join(&[&header[..], &sub_chunk(b"TMAP", b"cut")]),
            fault(4, SUB + header.len() + SUB),
        ),
    ];
    for before in [1, 2] {
        let front = good.repeat(before);
        for (name, body, own) in &rows {
            let block = sub_chunk(b"BLOK", body);
            let blocks = surf(Kind::Lwo2, &[&front, &block, &behind]);
            let offset = first_sub(Kind::Lwo2) + front.len() + own.offset;
            let name = format!("place-block-after-{before}-{name}");
            let told = fault(own.number, offset);
            catalogue.add_chunk(&name, &Setting::lwo2(), &blocks, told);
        }
    }
}

/// A later list of polygons: an index in four bytes, or a number in two, is cut
/// after good ones.
fn add_later_lists(catalogue: &mut Catalogue) {
    let tagged = Setting::lwo2_polygons();
    let face = join(&[&b"FACE"[..], &u2(2), &vx_short(2)]);
    for there in 0..4 {
        let index = &vx_long(1)[..there];
        let name = format!("place-later-vertex-cut-to-{there}");
        let later = chunk(b"POLS", &join(&[&face[..], index]));
        let offset = CHUNK + face.len();
        catalogue.add_chunk(&name, &tagged, &later, fault(19, offset));
    }
    let whole = join(&[u2(1), u2(2), i2(2)]);
    let listed = Setting::lwob().with(chunk(b"POLS", &whole));
    for (word, tag) in [("face", b"POLS"), ("patch", b"PCHS")] {
        let front = join(&[&whole[..], &u2(2), &u2(1)]);
        for there in 0..2 {
            let name = format!("place-later-{word}-cut-to-{there}");
            let later = chunk(tag, &join(&[&front[..], &vec![0; there]]));
            let offset = CHUNK + front.len();
            catalogue.add_chunk(&name, &listed, &later, fault(19, offset));
        }
    }
}

/// The same in a later list of pairs, behind a whole pair. No byte of a pair at
/// all is no pair.
fn add_later_pairs(catalogue: &mut Catalogue, word: &str, kind: &Tag) {
    let pair = join(&[&kind[..], &vx_short(1), &u2(1)]);
    let once_tagged = Setting::lwo2_polygons().with(chunk(b"PTAG", &pair));
    for there in 1..4 {
        let name = format!("place-later-{word}polygon-cut-to-{there}");
        let later = chunk(b"PTAG", &join(&[&pair[..], &vx_long(1)[..there]]));
        let offset = CHUNK + pair.len();
        catalogue.add_chunk(&name, &once_tagged, &later, fault(19, offset));
    }
}
