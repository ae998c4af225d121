//! Request #103: layers worked by hand, and LAYR put into and taken out of
//! generated files.

use cases::assemble::{chunk, Kind};
use cases::insert::{boundaries, chunk_spans, inserted, kind_of};
use cases::layer::Layer;
use cases::random::Random;
use cases::valid::valid;
use second::{listing, Answer};

use crate::help::{accepted, hex, verdict};

/// A point and a face in one layer, two points and a patch in another, whose
/// parent is the first.
const BEFORE: &str = "
4c574f32 54414753 00000004 4f616b00
4c415952 00000016 0000 0000 00000000 00000000 00000000 426f64790000
504e5453 0000000c 00000000 00000000 00000000
504f4c53 00000008 46414345 0001 0000
50544147 00000008 53555246 0000 0000
4c415952 00000016 0001 0001 3f800000 00000000 00000000 4c696400 0000
";
const POINTS: &str = "504e5453 00000018
3f800000 00000000 00000000 00000000 3f800000 00000000";
const PATCH: &str = "504f4c53 0000000a 50544348 0002 0000 0001";
const TAGGING: &str = "50544147 00000008 53555246 0000 0000";

/// FORM, its length, and these bytes.
fn file_of(pieces: &[&str]) -> Vec<u8> {
    let content = hex(&pieces.concat());
    let length = content.len() as u32;
    [&b"FORM"[..], &length.to_be_bytes(), &content].concat()
}

#[test]
fn two_of_them_worked_by_hand() {
    let lines = "\
accepted
points 3
polygons 2
vertices 3
names 1
name-bytes 3
skipped 0
details 0
polygon 0 kind 1 surface 1 part 0 vertices 0
polygon 1 kind 2 surface 1 part 0 vertices 1 2
";
    assert_eq!(listing(&file_of(&[BEFORE, POINTS, PATCH, TAGGING])), lines);
}

/// "a POLS in a layer with no points picked up the previous layer's": the
/// second layer's own chunks begin at 136.
#[test]
fn polygons_borrow_nothing_from_another() {
    let without_points = file_of(&[BEFORE, PATCH, TAGGING]);
    assert_eq!(verdict(&without_points), "refused 5 at 136");
    let without_polygons = file_of(&[BEFORE, POINTS, TAGGING]);
    assert_eq!(verdict(&without_polygons), "refused 5 at 168");
}

/// The number lies at 20, the flags at 22, the pivot's floats at 24, 28 and 32,
/// the name at 36, the parent at 40.
#[test]
fn one_of_every_length() {
    let body = hex("0001 0000 3f800000 00000000 bf800000 4c696400 ffff 0000 0000");
    let told = [
        (0..2, "refused 19 at 20"),
        (2..4, "refused 19 at 22"),
        (4..8, "refused 19 at 24"),
        (8..12, "refused 19 at 28"),
        (12..16, "refused 19 at 32"),
        (16..20, "refused 20 at 36"),
        (20..21, "accepted"),
        (21..22, "refused 19 at 40"),
        (22..23, "accepted"),
        (23..27, "refused 6 at 12"),
    ];
    for (lengths, told) in told {
        for length in lengths {
            let layer = chunk(b"LAYR", &body[..length]);
            let file = cases::assemble::form(Kind::Lwo2, &layer);
            assert_eq!(verdict(&file), told, "{length} bytes");
        }
    }
}

/// The first chunk from an offset on that goes by a list before that offset:
/// a POLS with no PNTS between, or a PTAG with no POLS. None goes by one before
/// the next LAYR.
fn first_borrower(file: &[u8], at: usize) -> Option<usize> {
    let (mut points, mut polygons) = (false, false);
    for span in chunk_spans(file) {
        if span.start < at {
            continue;
        }
        match &file[span.start..span.start + 4] {
            b"LAYR" => return None,
            b"PNTS" => points = true,
            b"POLS" if points => polygons = true,
            b"PTAG" if polygons => {}
            b"POLS" | b"PTAG" => return Some(span.start),
            _ => {}
        }
    }
    None
}

/// One more LAYR at any boundary: in LWO2 the same answer and mesh, or 5 at the
/// first chunk that went by a list before it; in LWOB one more skipped.
#[test]
fn one_more_anywhere() {
    let layer = Layer::named(b"new").chunk();
    let (mut same, mut refused) = (0, 0);
    for seed in 0..1_000 {
        let file = valid(&mut Random::new(seed)).parts.file();
        let (answer, tables) = accepted(&file);
        for at in boundaries(&file) {
            let longer = inserted(&file, at, &layer);
            let lwob = kind_of(&file) == Kind::Lwob;
            let borrower = first_borrower(&file, at).filter(|_| !lwob);
            if let Some(chunk) = borrower {
                let told = format!("refused 5 at {}", chunk + layer.len());
                assert_eq!(verdict(&longer), told, "seed {seed} at {at}");
                refused += 1;
                continue;
            }
            let expected = Answer {
                skipped: answer.skipped + u64::from(lwob),
                ..answer
            };
            let got = accepted(&longer);
            assert_eq!(got, (expected, tables.clone()), "seed {seed} at {at}");
            same += 1;
        }
    }
    assert!(same > 3_000 && refused > 1_000, "{same} {refused}");
}

/// "The mesh doesn't keep the layer": without one of its LAYR an accepted LWO2
/// file has the same answer and mesh.
#[test]
fn one_less_changes_nothing() {
    let mut taken = 0;
    for seed in 0..1_000 {
        let parts = valid(&mut Random::new(seed)).parts;
        if parts.kind == Kind::Lwob {
            continue;
        }
        let before = accepted(&parts.file());
        for number in 0..parts.chunks.len() {
            if parts.chunks[number].starts_with(b"LAYR") {
                let mut fewer = parts.clone();
                fewer.chunks.remove(number);
                assert_eq!(accepted(&fewer.file()), before, "seed {seed}");
                taken += 1;
            }
        }
    }
    assert!(taken > 400, "{taken}");
}
