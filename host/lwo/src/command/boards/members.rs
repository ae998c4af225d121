//! Boards for scripts: the members of a JSON object that tell of them.

use lwo::{Name, POINT_WORDS};

use super::board::{millimetres, Board};
use super::by_name::{Boards, Colour, NamedBoard, Pair, Which};
use crate::command::json::{array, hexadecimal, Object};

/// Adds the boards by their names alone, and by their parts.
pub fn with_boards(object: Object, boards: &Boards) -> Object {
    let named = boards.named().map(|one| named(one, &one.board));
    let without_surface = Some(&boards.without_surface).filter(|board| board.is_used());
    with_named(object, named, without_surface).with("parts", parts(boards))
}

/// The parts in order, and behind them what belongs to none; nothing where no polygon belongs to
/// one.
fn parts(boards: &Boards) -> String {
    let pairs: Vec<(&Pair, &Board)> = match boards.have_parts() {
        true => boards.pairs().collect(),
        false => Vec::new(),
    };
    let parts = pairs.chunk_by(|(one, _), (next, _)| one.part == next.part);
    array(parts.map(|pairs| part(boards, pairs)))
}

/// What is cut for one part, or for none. What has no surface is the last of its pairs.
fn part(boards: &Boards, pairs: &[(&Pair, &Board)]) -> String {
    let (on_boards, without_surface) = match pairs {
        [on_boards @ .., (last, board)] if last.surface == Which::None => (on_boards, Some(*board)),
        on_boards => (on_boards, None),
    };
    let on_boards = on_boards
        .iter()
        .filter_map(|(pair, board)| Some(named(boards.name(pair.surface)?, board)));
    let part = pairs.first().and_then(|(pair, _)| boards.name(pair.part));
    let object = match part {
        Some(one) => with_name(Object::new(), &one.name),
        None => Object::new().with("name", "null").with("name_hex", "null"),
    };
    with_named(object, on_boards, without_surface).finish()
}

fn with_named(
    object: Object,
    named: impl Iterator<Item = String>,
    without_surface: Option<&Board>,
) -> Object {
    let without_surface = match without_surface {
        Some(board) => with_board(Object::new(), board).finish(),
        None => String::from("null"),
    };
    object
        .with("boards", array(named))
        .with("no_surface", without_surface)
}

/// Polygons that are cut from the board of a name.
fn named(one: &NamedBoard, board: &Board) -> String {
    let object = with_name(Object::new(), &one.name);
    let object = match one.colour {
        Colour::None => object.with("colour", "null"),
        Colour::Several => object.with_text("colour", "several"),
        Colour::One(levels) => object.with("colour", array(levels.iter().map(f32::to_string))),
    };
    with_board(object, board).finish()
}

/// A name is text by its UTF-8, or by its Latin-1 where it is none; its bytes stand beside it.
fn with_name(object: Object, bytes: &[u8]) -> Object {
    let name = Name::from(bytes);
    let text = name
        .to_str()
        .map_or_else(|_| name.to_latin1(), String::from);
    object
        .with_text("name", &text)
        .with_text("name_hex", &hexadecimal(bytes))
}

fn with_board(object: Object, board: &Board) -> Object {
    let object = object
        .with("faces", board.faces)
        .with("patches", board.patches)
        .with("vertices", board.vertices);
    let lengths = |lengths: [f64; POINT_WORDS]| array(lengths.into_iter().map(millimetres));
    match &board.extent {
        None => object.with("size_mm", "null"),
        Some(extent) => object
            .with("size_mm", lengths(extent.size()))
            .with("lowest_mm", lengths(extent.lowest()))
            .with("highest_mm", lengths(extent.highest())),
    }
}
