//! LAYR's own items, which request #103 lists for LWO2: "number U2, flags U2,
//! pivot of three finite floats (7), name, and a parent U2 or nothing after it
//! (a single byte is 19)". All of it in the first layer and in a later one.

use super::body::{Body, Role};
use super::items::add_cuts;
use super::names::no_string;
use super::settings::{layer, points, two_faces, Setting};
use super::{Catalogue, Fault};
use crate::assemble::{chunk, f4, join, string, u2, Kind};
use crate::floats::NOT_FINITE;

pub fn add(catalogue: &mut Catalogue) {
    let first = Setting::empty(Kind::Lwo2);
    let whole = first
        .clone()
        .with(layer())
        .with(points(3))
        .with(two_faces());
    for (word, before) in [("first-layer", first), ("later-layer", whole)] {
        add_cuts(catalogue, word, b"LAYR", &before, &front());
        add_pivots(catalogue, word, &before);
        add_names(catalogue, word, &before);
        add_parents(catalogue, word, &before);
        add_order(catalogue, word, &before);
    }
}

fn fault(number: u64, offset: usize) -> Fault {
    Fault { number, offset }
}

/// What stands before the name: number, flags and pivot.
fn front() -> Body {
    Body::default()
        .then(Role::Number, u2(1))
        .then(Role::Number, u2(0))
        .then(Role::Float, f4(0x3f80_0000))
        .then(Role::Float, f4(0))
        .then(Role::Float, f4(0xc000_0000))
}

/// Where the name lies in the chunk: after the header, two numbers and three
/// floats.
const NAME: usize = 8 + 2 * 2 + 3 * 4;

/// A LAYR chunk with these bytes behind its pivot.
fn with_end(end: &[u8]) -> Vec<u8> {
    chunk(b"LAYR", &join(&[&front().bytes()[..], end]))
}

/// 7: "coordinate or level not finite", for each float of the pivot.
fn add_pivots(catalogue: &mut Catalogue, word: &str, before: &Setting) {
    let front = front();
    for item in front.of_role(Role::Float) {
        for (number, bits) in NOT_FINITE.iter().enumerate() {
            let body = join(&[front.replaced(item, &f4(*bits)), string(b"ab")]);
            let name = format!("{word}-item-{item}-not-finite-{number}");
            let told = fault(7, 8 + front.offset(item));
            catalogue.add_chunk(&name, before, &chunk(b"LAYR", &body), told);
        }
    }
}

/// 20, at the name's first byte, also where it is over 255 bytes.
fn add_names(catalogue: &mut Catalogue, word: &str, before: &Setting) {
    for (name, bytes) in no_string() {
        let name = format!("{word}-name-{name}");
        catalogue.add_chunk(&name, before, &with_end(&bytes), fault(20, NAME));
    }
}

/// "a single byte is 19"; three and more are a parent and bytes left over,
/// which is LAYR's own fault.
fn add_parents(catalogue: &mut Catalogue, word: &str, before: &Setting) {
    let ends = [("empty", string(b"")), ("long", string(&[b'n'; 300]))];
    for (which, name) in ends {
        for byte in [0, 1, 255] {
            let layer = with_end(&join(&[&name[..], &[byte]]));
            let told = fault(19, NAME + name.len());
            let name = format!("{word}-{which}-name-and-byte-{byte}");
            catalogue.add_chunk(&name, before, &layer, told);
        }
        for bytes in [3, 4, 5, 8] {
            let layer = with_end(&join(&[&name[..], &vec![0; bytes]]));
            let name = format!("{word}-{which}-name-and-{bytes}-bytes");
            catalogue.add_chunk(&name, before, &layer, fault(6, 0));
        }
    }
}

/// Two faults: "bytes in order", a cut item before its value, bytes left over
/// at last; a bad pad before all of them.
fn add_order(catalogue: &mut Catalogue, word: &str, before: &Setting) {
    let front = front();
    let last = front.replaced(4, &f4(0x7fc0_0000));
    let first = front.replaced(2, &f4(0x7fc0_0000));
    let rows: Vec<(&str, Vec<u8>, Fault)> = vec![
        ("pivot-before-cut-pivot", first[..10].to_vec(), fault(7, 12)),
        ("cut-pivot-before-value", last[..15].to_vec(), fault(19, 20)),
        (
            "pivot-before-name",
            join(&[&last[..], b"open"]),
            fault(7, 20),
        ),
        (
            "pivot-before-left-over",
            join(&[&last[..], &string(b"ab"), &[0; 4]]),
            fault(7, 20),
        ),
        (
            "name-before-parent",
            join(&[&front.bytes()[..], b"ab\0\x01", &[0]]),
            fault(20, NAME),
        ),
    ];
    for (name, body, told) in rows {
        let name = format!("order-{word}-{name}");
        catalogue.add_chunk(&name, before, &chunk(b"LAYR", &body), told);
    }
    for (name, end) in [("parent", vec![0]), ("left-over", vec![0; 3])] {
        let mut bad_pad = with_end(&join(&[string(b"ab"), end]));
        *bad_pad.last_mut().expect("a pad byte") = 1;
        let name = format!("order-{word}-pad-before-{name}");
        catalogue.add_chunk(&name, before, &bad_pad, fault(4, 0));
    }
    let later = join(&[with_end(&[]), chunk(b"POLS", &[])]);
    let name = format!("order-{word}-before-missing-points");
    catalogue.add_chunk(&name, before, &later, fault(20, NAME));
}
