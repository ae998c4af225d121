//! Boards as a table for people.

use std::array::from_fn;
use std::io::{self, Write};

use lwo::{Escaped, POINT_WORDS};

use super::board::{millimetres, Board};
use super::by_name::{Boards, Colour, Which};

/// Counts, the size by its axes, the colour and the part; the board's name stands behind them.
const COLUMNS: usize = 3 + POINT_WORDS + 2;

const HEADINGS: [&str; COLUMNS] = [
    "faces", "patches", "vertices", "x mm", "y mm", "z mm", "colour", "part",
];

/// The column of names, which begin under each other; numbers end under each other.
const PART: usize = COLUMNS - 1;

/// Prints a line for each part and board that some polygon has, and for each board that none has,
/// under a line of headings, without columns in which nothing stands.
pub fn print(boards: &Boards, out: &mut impl Write) -> io::Result<()> {
    let mut rows = Vec::new();
    for (pair, board) in boards.pairs_and_unused() {
        let (colour, name) = match boards.name(pair.surface) {
            Some(one) => (colour(one.colour), quoted(&one.name)),
            None => (String::new(), String::from("no surface")),
        };
        rows.push((cells(&board, colour, part(boards, pair.part)), name));
    }
    let filled = |column: &usize| rows.iter().any(|(cells, _)| !cells[*column].is_empty());
    let columns: Vec<usize> = (0..COLUMNS).filter(filled).collect();
    rows.insert(0, (HEADINGS.map(String::from), String::from("board")));
    let widths: [usize; COLUMNS] = from_fn(|column| {
        let lengths = rows.iter().map(|(cells, _)| cells[column].chars().count());
        lengths.max().unwrap_or_default()
    });
    for (cells, name) in &rows {
        for &column in &columns {
            let (cell, width) = (&cells[column], widths[column]);
            match column {
                PART => write!(out, "  {cell:<width$}")?,
                _ => write!(out, "  {cell:>width$}")?,
            }
        }
        writeln!(out, "  {name}")?;
    }
    Ok(())
}

fn cells(board: &Board, colour: String, part: String) -> [String; COLUMNS] {
    let size = match &board.extent {
        Some(extent) => extent.size().map(millimetres),
        None => [const { String::new() }; POINT_WORDS],
    };
    let [x, y, z] = size;
    let [faces, patches, vertices] =
        [board.faces, board.patches, board.vertices].map(|count| count.to_string());
    [faces, patches, vertices, x, y, z, colour, part]
}

/// A name in quotation marks, so that none looks like words that stand for no name.
fn quoted(name: &[u8]) -> String {
    format!("\"{}\"", Escaped(name))
}

/// Nothing stands in the column where no polygon belongs to a part.
fn part(boards: &Boards, part: Which) -> String {
    match boards.name(part) {
        Some(one) => quoted(&one.name),
        None if boards.have_parts() => String::from("none"),
        None => String::new(),
    }
}

fn colour(colour: Colour) -> String {
    match colour {
        Colour::None => String::from("none"),
        Colour::Several => String::from("several"),
        Colour::One([red, green, blue]) => format!("{red:.3} {green:.3} {blue:.3}"),
    }
}
