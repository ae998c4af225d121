//! Strings: 20 for each "string without terminator or zero pad", at its first
//! byte, and 13 "in TAGS or SRFS only: name over 255 bytes, or equal to an
//! earlier name there".

use super::headers::surf_front;
use super::settings::Setting;
use super::{Catalogue, Fault, KINDS};
use crate::assemble::{chunk, join, string, sub_chunk, Kind};

pub fn add(catalogue: &mut Catalogue) {
    for kind in KINDS {
        add_list_strings(catalogue, kind);
        add_long_names(catalogue, kind);
        add_equal_names(catalogue, kind);
    }
    add_surf_strings(catalogue);
    add_block_strings(catalogue);
}

fn list_tag(kind: Kind) -> &'static [u8; 4] {
    match kind {
        Kind::Lwob => b"SRFS",
        Kind::Lwo2 => b"TAGS",
    }
}

/// Bytes at a body's end that are no string. The zero pad of a string lies
/// inside the body.
fn unfinished() -> Vec<(&'static str, Vec<u8>)> {
    vec![
        ("no-terminator-1", b"x".to_vec()),
        ("no-terminator-2", b"xy".to_vec()),
        ("no-terminator-3", b"xyz".to_vec()),
        ("no-terminator-300", vec![b'x'; 300]),
        ("pad-missing-0", vec![0]),
        ("pad-missing-2", b"xy\0".to_vec()),
        ("pad-missing-4", b"xyzw\0".to_vec()),
        ("pad-wrong-0", b"\0x".to_vec()),
        ("pad-wrong-2", b"xy\0\x01".to_vec()),
    ]
}

/// The same, and no byte at all, which is no string either where one must be.
pub fn no_string() -> Vec<(&'static str, Vec<u8>)> {
    let mut list = unfinished();
    list.push(("nothing", Vec::new()));
    list
}

/// The first, second and fourth string of a list.
fn add_list_strings(catalogue: &mut Catalogue, kind: Kind) {
    let fronts = [
        ("first", Vec::new()),
        ("second", string(b"a")),
        ("fourth", join(&[string(b""), string(b"a"), string(b"bc")])),
    ];
    for (which, front) in fronts {
        for (name, bytes) in unfinished() {
            let body = join(&[&front[..], &bytes]);
            let list = chunk(list_tag(kind), &body);
            let name = format!("names-{which}-{name}");
            let fault = Fault {
                number: 20,
                offset: 8 + front.len(),
            };
            catalogue.add_chunk(&name, &Setting::empty(kind), &list, fault);
        }
    }
}

/// "name over 255 bytes", as the first, a middle and the last one.
fn add_long_names(catalogue: &mut Catalogue, kind: Kind) {
    for length in [256, 257, 511, 65_536 / 8] {
        let long = string(&vec![b'n'; length]);
        for (which, front, behind) in [
            ("first", Vec::new(), string(b"a")),
            ("middle", string(b"a"), string(b"b")),
            ("last", join(&[string(b"a"), string(b"")]), Vec::new()),
        ] {
            let body = join(&[&front[..], &long, &behind]);
            let name = format!("names-{which}-of-{length}");
            let fault = Fault {
                number: 13,
                offset: 8 + front.len(),
            };
            let list = chunk(list_tag(kind), &body);
            catalogue.add_chunk(&name, &Setting::empty(kind), &list, fault);
        }
    }
}

/// "equal to an earlier name there": the later one is at fault.
fn add_equal_names(catalogue: &mut Catalogue, kind: Kind) {
    let longest = vec![b'n'; 255];
    let lists: [(&str, Vec<&[u8]>, usize); 8] = [
        ("neighbours", vec![b"a", b"a"], 1),
        ("apart", vec![b"a", b"b", b"cd", b"a"], 3),
        ("empty", vec![b"", b""], 1),
        ("empty-apart", vec![b"", b"a", b""], 2),
        ("longest", vec![&longest, b"n", &longest], 2),
        ("not-first", vec![b"a", b"b", b"b", b"a"], 2),
        ("second-only", vec![b"a", b"b", b"cd", b"b"], 3),
        ("after-beginnings", vec![b"ab", b"a", b"abc", b"ab"], 3),
    ];
    for (name, names, again) in lists {
        let strings: Vec<Vec<u8>> = names.iter().map(|name| string(name)).collect();
        let list = chunk(list_tag(kind), &join(&strings));
        let fault = Fault {
            number: 13,
            offset: 8 + join(&strings[..again]).len(),
        };
        let name = format!("names-equal-{name}");
        catalogue.add_chunk(&name, &Setting::empty(kind), &list, fault);
    }
}

/// The name of each SURF, and LWO2's source string. Where no byte of it is
/// there, its place is the chunk's end.
fn add_surf_strings(catalogue: &mut Catalogue) {
    for (kind, which, front) in [
        (Kind::Lwob, "name", Vec::new()),
        (Kind::Lwo2, "name", Vec::new()),
        (Kind::Lwo2, "source", string(b"ab")),
        (Kind::Lwo2, "source-of-empty", string(b"")),
    ] {
        for (name, bytes) in no_string() {
            let surf = chunk(b"SURF", &join(&[&front[..], &bytes]));
            let name = format!("surf-{which}-{name}");
            let fault = Fault {
                number: 20,
                offset: 8 + front.len(),
            };
            catalogue.add_chunk(&name, &Setting::ready(kind), &surf, fault);
        }
    }
}

/// The string that each block header holds, inside its own length.
fn add_block_strings(catalogue: &mut Catalogue) {
    let front = surf_front(Kind::Lwo2);
    for (word, tag) in [
        ("imap", b"IMAP"),
        ("proc", b"PROC"),
        ("grad", b"GRAD"),
        ("shdr", b"SHDR"),
    ] {
        for (name, bytes) in no_string() {
            let block = sub_chunk(b"BLOK", &sub_chunk(tag, &bytes));
            let behind = sub_chunk(b"SIDE", &[0, 2]);
            let surf = chunk(b"SURF", &join(&[&front[..], &block, &behind]));
            let name = format!("{word}-string-{name}");
            let fault = Fault {
                number: 20,
                offset: 8 + front.len() + 12,
            };
            catalogue.add_chunk(&name, &Setting::lwo2(), &surf, fault);
        }
    }
}
