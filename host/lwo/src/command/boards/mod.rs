//! `lwo boards`: for each surface name, what is to be cut from its board, by the parts of the
//! figure where it has some.

mod board;
mod by_name;
mod members;
mod table;

use std::io::{self, Write};

use lwo::Mesh;

use super::check::counted;
use super::folders::with_folders;
use super::input::Source;
use super::json;
use super::many::each;
use super::standard::Standard;
use super::Outcome;
use by_name::{Boards, Total};

/// Prints the boards of each file, and of all together where there are several.
pub fn boards(sources: Vec<Source>, json: bool, out: &mut Standard) -> io::Result<Outcome> {
    let mut total = Total::default();
    let outcome = each(
        with_folders(sources),
        out,
        |file| Mesh::read(file).map(|mesh| Boards::of(&mesh)),
        |source, judged, out| match judged {
            Ok(boards) => {
                total.add(boards);
                match json {
                    true => print_json(source, boards, out),
                    false => print_table(&source.to_string(), boards, out),
                }
            }
            Err(why) => {
                total.add_rejected();
                match json {
                    true => writeln!(out, "{}", json::rejected(source, why)),
                    false => writeln!(out, "{source}: {why}"),
                }
            }
        },
    )?;
    if total.files > 1 {
        match json {
            true => print_json_total(&total, out)?,
            false => print_table(&heading(&total), &total.boards, out)?,
        }
    }
    Ok(outcome)
}

fn heading(total: &Total) -> String {
    let counted = counted(total.files, "file");
    match total.rejected {
        0 => format!("total of {counted}"),
        rejected => format!("total of {counted}, {rejected} of them not counted"),
    }
}

fn print_table(heading: &str, boards: &Boards, out: &mut impl Write) -> io::Result<()> {
    if boards.is_empty() {
        return writeln!(out, "{heading}: no boards");
    }
    writeln!(out, "{heading}:")?;
    table::print(boards, out)
}

fn print_json(source: &Source, boards: &Boards, out: &mut impl Write) -> io::Result<()> {
    let object = json::of_file(source).with("accepted", true);
    writeln!(out, "{}", members::with_boards(object, boards).finish())
}

fn print_json_total(total: &Total, out: &mut impl Write) -> io::Result<()> {
    let object = json::Object::new()
        .with("files", total.files)
        .with("not_counted", total.rejected);
    let object = members::with_boards(object, &total.boards);
    writeln!(
        out,
        "{}",
        json::Object::new().with("total", object.finish()).finish()
    )
}
