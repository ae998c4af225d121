//! The listing that the program prints.

use std::fmt::Write as _;

use crate::found::POLYGON_WORDS;
use crate::limits::PROGRAM_BYTES;
use crate::reader::{read, Answer};
use crate::tables::Tables;

/// "Its tables hold 5,461 points, 4,096 polygons, 16,384 vertices, 256 names
/// and 8,192 name bytes". The records table is as long as that of the names,
/// so that it is never the cause of 16.
pub fn program_tables() -> Tables {
    Tables::with_room(5_461, 4_096, 16_384, 256, 8_192, 256)
}

/// What the program prints for this input. Every line ends with a newline.
pub fn listing(input: &[u8]) -> String {
    if input.len() > PROGRAM_BYTES {
        return String::from("not read\n");
    }
    let mut tables = program_tables();
    let answer = read(input, &mut tables);
    if answer.number != 0 {
        return format!("refused {} at {}\n", answer.number, answer.place);
    }
    let mut text = counts(&answer);
    add_polygons(&mut text, &answer, &tables);
    text
}

fn counts(answer: &Answer) -> String {
    let lines = [
        ("points", answer.points),
        ("polygons", answer.polygons),
        ("vertices", answer.vertices),
        ("names", answer.names),
        ("name-bytes", answer.name_bytes),
        ("skipped", answer.skipped),
        ("details", answer.details),
    ];
    let mut text = String::from("accepted\n");
    for (word, count) in lines {
        add(&mut text, format_args!("{word} {count}\n"));
    }
    text
}

/// #111: "The listing adds ` part N` before ` vertices`".
fn add_polygons(text: &mut String, answer: &Answer, tables: &Tables) {
    let mut vertices = &tables.vertices[..answer.vertices as usize];
    let entries = tables.polygons.chunks_exact(POLYGON_WORDS);
    for (number, entry) in entries.take(answer.polygons as usize).enumerate() {
        let (kind, count) = (entry[0], entry[1]);
        let (surface, part) = (entry[2], entry[3]);
        let (own, rest) = vertices.split_at(count as usize);
        vertices = rest;
        add(
            text,
            format_args!("polygon {number} kind {kind} surface {surface} part {part} vertices"),
        );
        for vertex in own {
            add(text, format_args!(" {vertex}"));
        }
        text.push('\n');
    }
}

/// Adding to a string cannot fail.
fn add(text: &mut String, words: std::fmt::Arguments) {
    text.write_fmt(words).expect("a string takes any text");
}
