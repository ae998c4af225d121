//! `lwo list`: the listing of each file.

use std::io::{self, Write};

use lwo::{Counts, Polygon, Reading};

use super::folders::without_folders;
use super::input::Source;
use super::json::{self, array};
use super::many::each;
use super::rejection::Rejection;
use super::standard::Standard;
use super::{tell, Outcome};

/// Prints the listings, each under the name of its file where there are several.
pub fn list(sources: Vec<Source>, json: bool, out: &mut Standard) -> io::Result<Outcome> {
    let several = sources.len() > 1;
    each(
        without_folders(sources),
        out,
        Reading::of,
        |source, judged, out| match judged {
            Ok(reading) if json => print_json(source, reading, out),
            Err(why) if json => writeln!(out, "{}", json::rejected(source, why)),
            _ => {
                let heading = if several {
                    format!("{source}:\n")
                } else {
                    String::new()
                };
                print_listing(source, &heading, judged, out)
            }
        },
    )
}

fn print_listing(
    source: &Source,
    heading: &str,
    judged: &Result<Reading, Rejection>,
    out: &mut Standard,
) -> io::Result<()> {
    match judged {
        Ok(reading) => {
            write!(out, "{heading}")?;
            print_accepted(reading, out)
        }
        Err(Rejection::Refused(fault)) => {
            let (number, place) = (fault.refusal.number(), fault.refusal.place);
            writeln!(out, "{heading}refused {number} at {place}")
        }
        Err(rejection) => {
            // It has no listing. What is told of it comes after what was printed before.
            out.flush()?;
            tell(&format!("{source}: {rejection}"));
            Ok(())
        }
    }
}

fn print_accepted(reading: &Reading, out: &mut impl Write) -> io::Result<()> {
    print_counts(&reading.counts, out)?;
    for (number, polygon) in reading.mesh.polygons().enumerate() {
        print_polygon(number, &polygon, out)?;
    }
    Ok(())
}

fn print_counts(counts: &Counts, out: &mut impl Write) -> io::Result<()> {
    writeln!(out, "accepted")?;
    writeln!(out, "points {}", counts.points)?;
    writeln!(out, "polygons {}", counts.polygons)?;
    writeln!(out, "vertices {}", counts.vertices)?;
    writeln!(out, "names {}", counts.names)?;
    writeln!(out, "name-bytes {}", counts.name_bytes)?;
    writeln!(out, "skipped {}", counts.skipped)?;
    writeln!(out, "details {}", counts.details)
}

fn print_polygon(number: usize, polygon: &Polygon, out: &mut impl Write) -> io::Result<()> {
    let (kind, surface, part) = (polygon.kind.number(), polygon.surface, polygon.part);
    write!(
        out,
        "polygon {number} kind {kind} surface {surface} part {part} vertices"
    )?;
    for vertex in polygon.vertices {
        write!(out, " {vertex}")?;
    }
    writeln!(out)
}

fn print_json(source: &Source, reading: &Reading, out: &mut impl Write) -> io::Result<()> {
    let polygons = reading.mesh.polygons().map(|polygon| {
        json::Object::new()
            .with("kind", polygon.kind.number())
            .with("surface", polygon.surface)
            .with("part", polygon.part)
            .with(
                "vertices",
                array(polygon.vertices.iter().map(u32::to_string)),
            )
            .finish()
    });
    let object = json::accepted(source, &reading.counts).with("polygon_list", array(polygons));
    writeln!(out, "{}", object.finish())
}
