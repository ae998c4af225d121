//! The sub-chunks of SURF: 6 for wrong lengths and bytes left over, 19 for cut
//! items, 7 for levels, 15 for SIDE and BLOK.

use super::body::{Body, Role};
use super::headers::surf_front;
use super::settings::Setting;
use super::{Catalogue, Fault};
use crate::assemble::{chunk, f4, join, string, sub_chunk, u2, vx_long, vx_short, Kind};
use crate::floats::NOT_FINITE;

pub fn add(catalogue: &mut Catalogue) {
    add_fixed_lengths(catalogue);
    add_lwob_levels(catalogue);
    add_lwo2_values(catalogue);
    add_sides(catalogue);
    add_blocks(catalogue);
}

/// LWOB's sub-chunks and their fixed lengths.
pub const FIXED: [(&str, &[u8; 4], usize); 12] = [
    ("colr", b"COLR", 4),
    ("flag", b"FLAG", 2),
    ("lumi", b"LUMI", 2),
    ("diff", b"DIFF", 2),
    ("spec", b"SPEC", 2),
    ("refl", b"REFL", 2),
    ("tran", b"TRAN", 2),
    ("vlum", b"VLUM", 4),
    ("vdif", b"VDIF", 4),
    ("vspc", b"VSPC", 4),
    ("vrfl", b"VRFL", 4),
    ("vtrn", b"VTRN", 4),
];

/// A sub-chunk among good ones in a SURF, with a fault at an offset in it. The
/// SURF is for a listed name once, and once for one that is not listed: every
/// SURF is checked.
pub fn add_sub(catalogue: &mut Catalogue, kind: Kind, name: &str, sub: &[u8], fault: Fault) {
    let unlisted = match kind {
        Kind::Lwob => string(b"nobody"),
        Kind::Lwo2 => join(&[string(b"nobody"), string(b"source")]),
    };
    for (whose, front) in [("listed", surf_front(kind)), ("unlisted", unlisted)] {
        let before = sub_chunk(b"GLOS", b"odd");
        let behind = sub_chunk(b"SMAN", &[0; 4]);
        let surf = chunk(b"SURF", &join(&[&front[..], &before, sub, &behind]));
        let moved = Fault {
            number: fault.number,
            offset: 8 + front.len() + before.len() + fault.offset,
        };
        let name = format!("{whose}-{name}");
        catalogue.add_chunk(&name, &Setting::ready(kind), &surf, moved);
    }
}

/// A wrong length is the fault of the sub-chunk's own header. "003 tells of
/// old REFL and SPEC of length 4; they are 6 (house)."
fn add_fixed_lengths(catalogue: &mut Catalogue) {
    for (word, tag, right) in FIXED {
        for length in (0..9).filter(|&length| length != right) {
            let sub = sub_chunk(tag, &vec![0; length]);
            let name = format!("{word}-of-{length}");
            let fault = Fault {
                number: 6,
                offset: 0,
            };
            add_sub(catalogue, Kind::Lwob, &name, &sub, fault);
        }
    }
    for length in [0, 1, 3, 4, 6] {
        let sub = sub_chunk(b"SIDE", &vec![1; length]);
        let name = format!("side-of-{length}");
        let fault = Fault {
            number: 6,
            offset: 0,
        };
        add_sub(catalogue, Kind::Lwo2, &name, &sub, fault);
    }
}

/// 7 for each of LWOB's float forms.
fn add_lwob_levels(catalogue: &mut Catalogue) {
    for (word, tag, _) in &FIXED[7..] {
        for (number, bits) in NOT_FINITE.iter().enumerate() {
            let sub = sub_chunk(tag, &f4(*bits));
            let name = format!("{word}-not-finite-{number}");
            let fault = Fault {
                number: 7,
                offset: 6,
            };
            add_sub(catalogue, Kind::Lwob, &name, &sub, fault);
        }
    }
}

/// LWO2's colour and levels: so many floats and a VX.
pub const VALUES: [(&str, &[u8; 4], usize); 6] = [
    ("colr", b"COLR", 3),
    ("diff", b"DIFF", 1),
    ("lumi", b"LUMI", 1),
    ("spec", b"SPEC", 1),
    ("refl", b"REFL", 1),
    ("tran", b"TRAN", 1),
];

pub fn value_body(floats: usize, envelope: Vec<u8>) -> Body {
    let mut body = Body::default();
    for _ in 0..floats {
        body = body.then(Role::Float, f4(0x3f80_0000));
    }
    body.then(Role::Envelope, envelope)
}

fn add_lwo2_values(catalogue: &mut Catalogue) {
    for (word, tag, floats) in VALUES {
        for (form, envelope) in [("short", vx_short(1)), ("long", vx_long(65_280))] {
            let word = format!("{word}-{form}");
            let body = value_body(floats, envelope);
            add_value_cuts(catalogue, &word, tag, &body);
            add_value_levels(catalogue, &word, tag, &body);
            add_left_over(catalogue, &word, tag, &body);
        }
    }
}

/// These bodies have no fixed length, so too short a body is an item cut: 19,
/// at the item.
fn add_value_cuts(catalogue: &mut Catalogue, word: &str, tag: &[u8; 4], body: &Body) {
    for (item, there, bytes) in body.cuts() {
        let name = format!("{word}-item-{item}-cut-to-{there}");
        let fault = Fault {
            number: 19,
            offset: 6 + body.offset(item),
        };
        let sub = sub_chunk(tag, &bytes);
        add_sub(catalogue, Kind::Lwo2, &name, &sub, fault);
    }
}

fn add_value_levels(catalogue: &mut Catalogue, word: &str, tag: &[u8; 4], body: &Body) {
    for item in body.of_role(Role::Float) {
        for (number, bits) in NOT_FINITE.iter().enumerate() {
            let sub = sub_chunk(tag, &body.replaced(item, &f4(*bits)));
            let name = format!("{word}-item-{item}-not-finite-{number}");
            let fault = Fault {
                number: 7,
                offset: 6 + body.offset(item),
            };
            add_sub(catalogue, Kind::Lwo2, &name, &sub, fault);
        }
    }
}

/// "Bodies are used up exactly": too long a body is 6, at the sub-chunk's own
/// header.
fn add_left_over(catalogue: &mut Catalogue, word: &str, tag: &[u8; 4], body: &Body) {
    for more in 1..5 {
        let bytes = join(&[&body.bytes()[..], &vec![0; more]]);
        let name = format!("{word}-left-over-{more}");
        let fault = Fault {
            number: 6,
            offset: 0,
        };
        let sub = sub_chunk(tag, &bytes);
        add_sub(catalogue, Kind::Lwo2, &name, &sub, fault);
    }
}

/// 15: "SIDE neither 1 nor 3", at the value.
fn add_sides(catalogue: &mut Catalogue) {
    for value in [0, 2, 4, 5, 0x0100, 0x0101, 0x0300, 0x0301, 0x0303, 0xffff] {
        let sub = sub_chunk(b"SIDE", &u2(value));
        let name = format!("side-{value}");
        let fault = Fault {
            number: 15,
            offset: 6,
        };
        add_sub(catalogue, Kind::Lwo2, &name, &sub, fault);
    }
    let replaced = join(&[sub_chunk(b"SIDE", &u2(2)), sub_chunk(b"SIDE", &u2(1))]);
    let fault = Fault {
        number: 15,
        offset: 6,
    };
    add_sub(catalogue, Kind::Lwo2, "side-replaced", &replaced, fault);
}

/// 15: "BLOK empty or with another first sub-chunk", which is BLOK's own
/// fault.
fn add_blocks(catalogue: &mut Catalogue) {
    let header = sub_chunk(b"IMAP", &string(b"x"));
    let bodies: Vec<(&str, Vec<u8>)> = vec![
        ("empty", Vec::new()),
        ("tmap", sub_chunk(b"TMAP", &[])),
        ("chan", sub_chunk(b"CHAN", b"COLR")),
        ("blok", sub_chunk(b"BLOK", &header)),
        ("lowercase", sub_chunk(b"imap", &string(b"x"))),
        ("imaq", sub_chunk(b"IMAQ", &string(b"x"))),
        ("imag", sub_chunk(b"IMAG", &u2(1))),
        ("late", join(&[sub_chunk(b"ENAB", &u2(1)), header.clone()])),
        ("odd", sub_chunk(b"ABCD", b"odd")),
        ("tmap-malformed-inside", sub_chunk(b"TMAP", b"cut")),
    ];
    for (name, body) in bodies {
        let sub = sub_chunk(b"BLOK", &body);
        let name = format!("blok-{name}");
        let fault = Fault {
            number: 15,
            offset: 0,
        };
        add_sub(catalogue, Kind::Lwo2, &name, &sub, fault);
    }
    let good = sub_chunk(b"BLOK", &header);
    let second = join(&[good.clone(), sub_chunk(b"BLOK", &[])]);
    let fault = Fault {
        number: 15,
        offset: good.len(),
    };
    add_sub(catalogue, Kind::Lwo2, "blok-second-empty", &second, fault);
}
