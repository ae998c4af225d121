//! What is told of refused files: of files made by hand for each number, and of many changed ones.

mod changed;
mod headers;
mod items;
mod layers;
mod right;
mod strings;

use cases::assemble::{chunk, form, join, string, u2, Kind, Tag};
use lwo::Counts;

use super::Fault;

fn lwo2(chunks: &[Vec<u8>]) -> Vec<u8> {
    form(Kind::Lwo2, &join(chunks))
}

fn lwob(chunks: &[Vec<u8>]) -> Vec<u8> {
    form(Kind::Lwob, &join(chunks))
}

/// Three points, 44 bytes.
fn points() -> Vec<u8> {
    chunk(b"PNTS", &[0; 36])
}

/// One point more than two bytes have indices for, 783,380 bytes.
fn many_points() -> Vec<u8> {
    chunk(b"PNTS", &[0; 12 * 65_281])
}

/// `Oak` and `Ash`, 16 bytes.
fn names(tag: &Tag) -> Vec<u8> {
    chunk(tag, b"Oak\0Ash\0")
}

/// A list of one face of LWO2, 20 bytes.
fn face() -> Vec<u8> {
    chunk(
        b"POLS",
        &join(&[&b"FACE"[..], &u2(3), &u2(0), &u2(1), &u2(2)]),
    )
}

/// What stands in a LAYR before the name.
const LAYER_ITEMS: [u8; 16] = [0; 16];

/// A layer with the name `Lid` and, behind it, a parent or nothing; 28 bytes without one.
fn layer(parent: &[u8]) -> Vec<u8> {
    chunk(b"LAYR", &join(&[&LAYER_ITEMS[..], b"Lid\0", parent]))
}

/// An LWO2 file of one surface, whose sub-chunks begin at 30.
fn surface(sub_chunks: &[Vec<u8>]) -> Vec<u8> {
    let body = [string(b"Lime"), string(b"oak"), join(sub_chunks)];
    lwo2(&[chunk(b"SURF", &join(&body))])
}

/// An LWOB file of one surface, whose sub-chunks begin at 26.
fn old_surface(sub_chunks: &[Vec<u8>]) -> Vec<u8> {
    let body = [string(b"Lime"), join(sub_chunks)];
    lwob(&[chunk(b"SURF", &join(&body))])
}

/// What is told of a file that the library refuses, but for the number's own sentence.
fn told(file: &[u8]) -> String {
    let refusal = Counts::of(file).expect_err("it is refused");
    let text = Fault::of(refusal, file).to_string();
    text.replace(&format!(": {}", refusal.sentence()), "")
}
