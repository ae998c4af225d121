//! `lwo check`: one line for each file.

use std::io::{self, Write};

use lwo::{Counts, Escaped, Refusal};

use super::chunks::{self, TagCount};
use super::folders::with_folders;
use super::input::Source;
use super::json;
use super::many::each;
use super::standard::Standard;
use super::Outcome;

/// How the files are told.
#[derive(Clone, Copy, Debug, PartialEq, Eq)]
pub enum Form {
    Short,
    /// With the tags of the chunks that were skipped.
    Verbose,
    Json,
}

/// What an accepted file holds.
struct Checked {
    counts: Counts,
    skipped: Vec<TagCount>,
}

pub fn check(sources: Vec<Source>, form: Form, out: &mut Standard) -> io::Result<Outcome> {
    each(
        with_folders(sources),
        out,
        checked,
        |source, judged, out| match (judged, form) {
            (Ok(file), Form::Json) => {
                let object = json::accepted(source, &file.counts);
                let tags = json_of_tags(&file.skipped);
                writeln!(out, "{}", object.with("skipped_tags", tags).finish())
            }
            (Ok(file), _) => {
                let verbose = form == Form::Verbose;
                writeln!(out, "{source}: accepted, {}", sentence(file, verbose))
            }
            (Err(why), Form::Json) => writeln!(out, "{}", json::rejected(source, why)),
            (Err(why), _) => writeln!(out, "{source}: {why}"),
        },
    )
}

fn checked(file: &[u8]) -> Result<Checked, Refusal> {
    Ok(Checked {
        counts: Counts::of(file)?,
        skipped: chunks::skipped(file),
    })
}

/// What the file holds; what it has that is not in the mesh is told only where there is any.
fn sentence(file: &Checked, verbose: bool) -> String {
    let counts = &file.counts;
    let mut parts = vec![
        counted(counts.points, "point"),
        counted(counts.polygons, "polygon"),
        counted(counts.names, "name"),
    ];
    if counts.skipped > 0 {
        let mut skipped = format!("{} skipped", counted(counts.skipped, "chunk"));
        if verbose {
            skipped += &format!(" ({})", tags(&file.skipped));
        }
        parts.push(skipped);
    }
    if counts.details > 0 {
        parts.push(format!("{} not kept", counted(counts.details, "detail")));
    }
    parts.join(", ")
}

/// As in `2 VMAP, 1 CLIP`.
fn tags(skipped: &[TagCount]) -> String {
    let words = skipped
        .iter()
        .map(|one| format!("{} {}", one.count, Escaped(&one.tag)));
    words.collect::<Vec<String>>().join(", ")
}

fn json_of_tags(skipped: &[TagCount]) -> String {
    let object = skipped.iter().fold(json::Object::new(), |object, one| {
        object.with(&Escaped(&one.tag).to_string(), one.count)
    });
    object.finish()
}

pub fn counted(count: u64, thing: &str) -> String {
    let ending = match count {
        1 => "",
        _ if thing.ends_with("ch") => "es",
        _ => "s",
    };
    format!("{count} {thing}{ending}")
}

#[cfg(test)]
mod tests {
    use super::*;

    #[test]
    fn one_thing_is_not_many() {
        assert_eq!(counted(0, "point"), "0 points");
        assert_eq!(counted(1, "point"), "1 point");
        assert_eq!(counted(2, "patch"), "2 patches");
    }

    #[test]
    fn what_is_not_in_the_mesh_is_told_where_there_is_any() {
        let mut file = Checked {
            counts: Counts {
                points: 3,
                polygons: 1,
                vertices: 3,
                names: 1,
                ..Counts::default()
            },
            skipped: Vec::new(),
        };
        assert_eq!(sentence(&file, true), "3 points, 1 polygon, 1 name");
        file.counts.skipped = 3;
        file.counts.details = 1;
        file.skipped = vec![TagCount::new(*b"VMAP", 2), TagCount::new(*b"CLIP", 1)];
        assert_eq!(
            sentence(&file, false),
            "3 points, 1 polygon, 1 name, 3 chunks skipped, 1 detail not kept",
        );
        assert_eq!(
            sentence(&file, true),
            "3 points, 1 polygon, 1 name, 3 chunks skipped (2 VMAP, 1 CLIP), 1 detail not kept",
        );
    }
}
