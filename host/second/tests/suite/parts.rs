//! Request #111: parts worked by hand, and PTAG of type PART in generated files.

use cases::assemble::{Kind, Parts};
use cases::insert::chunk_spans;
use cases::random::Random;
use cases::targeted::targeted;
use cases::valid::valid;
use second::found::POLYGON_WORDS;
use second::{listing, rules, Tables};

use crate::help::{accepted, hex, mesh_of, mutation, verdict};

/// The names Oak, head and saddle, two points, three faces; what follows begins
/// at 96.
const BEFORE: &str = "
4c574f32 54414753 00000012 4f616b00 68656164 0000 736164646c650000
504e5453 00000018 00000000 00000000 00000000 3f800000 00000000 00000000
504f4c53 00000012 46414345 0001 0000 0001 0001 0002 0000 0001
";

/// FORM, its length, that beginning and these bytes.
fn file_of(pieces: &[&str]) -> Vec<u8> {
    let content = hex(&[&[BEFORE], pieces].concat().concat());
    let length = content.len() as u32;
    [&b"FORM"[..], &length.to_be_bytes(), &content].concat()
}

/// "Modellers mark "head" and "saddle" with PTAG of type PART": the first face
/// is of the head and of oak, the second of the saddle, the third of neither.
#[test]
fn worked_by_hand() {
    let surfaces = "50544147 0000000c 53555246 0000 0000 0002 0000";
    let parts = "50544147 00000010 50415254 0001 0000 0000 0001 0001 0002";
    let lines = "\
accepted
points 2
polygons 3
vertices 4
names 3
name-bytes 13
skipped 0
details 0
polygon 0 kind 1 surface 1 part 2 vertices 0
polygon 1 kind 1 surface 0 part 3 vertices 1
polygon 2 kind 1 surface 1 part 0 vertices 0 1
";
    assert_eq!(listing(&file_of(&[surfaces, parts])), lines);
    assert_eq!(listing(&file_of(&[parts, surfaces])), lines);
    let mesh = mesh_of(&file_of(&[surfaces, parts]));
    let tagged: Vec<(u32, u32)> = mesh.polygons.iter().map(|p| (p.surface, p.part)).collect();
    assert_eq!(tagged, [(1, 2), (0, 3), (1, 0)]);
}

/// "with the same checks and numbers 10 and 11": one pair over three faces and
/// three names, of type SURF and of type PART. Its type lies at 104, its polygon
/// number at 108.
#[test]
fn one_pair_of_each_sort() {
    let rows = [
        ("0002 0002", "accepted"),
        ("0002 0003", "refused 10 at 110"),
        ("0002 ffff", "refused 10 at 110"),
        ("0003 0002", "refused 11 at 108"),
        ("0003 0003", "refused 11 at 108"),
        ("ff00ff00 0000", "refused 11 at 108"),
        ("ff000002 0002", "refused 22 at 108"),
        ("ff000003 0003", "refused 22 at 108"),
        ("ff00", "refused 19 at 108"),
        ("0002", "refused 19 at 110"),
        ("00", "refused 19 at 108"),
        ("0002 00", "refused 19 at 110"),
        ("", "accepted"),
        ("0000 0000 0001", "refused 19 at 114"),
    ];
    for (pair, told) in rows {
        for kind in ["53555246", "50415254"] {
            let body = hex(&format!("{kind} {pair}"));
            let mut file = file_of(&[]);
            file.extend(cases::assemble::chunk(b"PTAG", &body));
            cases::insert::correct_form_length(&mut file);
            assert_eq!(verdict(&file), told, "{kind} {pair}");
        }
    }
}

/// The other of the two types that are read.
fn other_type(kind: &[u8]) -> Option<&'static [u8]> {
    match kind {
        b"SURF" => Some(b"PART"),
        b"PART" => Some(b"SURF"),
        _ => None,
    }
}

/// A file with the types SURF and PART of its PTAG chunks exchanged, and how
/// many those are.
fn exchanged(file: &[u8]) -> (Vec<u8>, usize) {
    let mut other = file.to_vec();
    let mut times = 0;
    for span in chunk_spans(file) {
        let kind = span.start + 8..span.start + 12;
        if span.end < kind.end || &file[span.start..span.start + 4] != b"PTAG" {
            continue;
        }
        if let Some(kind_of_other) = other_type(&file[kind.clone()]) {
            other[kind].copy_from_slice(kind_of_other);
            times += 1;
        }
    }
    (other, times)
}

/// Tables with the surface and the part of each polygon exchanged.
fn with_words_exchanged(mut tables: Tables) -> Tables {
    for entry in tables.polygons.chunks_exact_mut(POLYGON_WORDS) {
        entry.swap(2, 3);
    }
    tables
}

/// "PART pairs are read like SURF pairs": with the types exchanged, surfaces and
/// parts are, and nothing else.
#[test]
fn are_read_like_surfaces() {
    let mut times = 0;
    for seed in 0..3_000 {
        let parts = valid(&mut Random::new(seed)).parts;
        if parts.kind == Kind::Lwob {
            continue;
        }
        let (answer, tables) = accepted(&parts.file());
        let (file, some) = exchanged(&parts.file());
        let (same, other) = accepted(&file);
        assert_eq!(same, answer, "seed {seed}");
        assert_eq!(other, with_words_exchanged(tables), "seed {seed}");
        times += some;
    }
    assert!(times > 2_000, "{times}");
}

/// And what refuses the one refuses the other.
#[test]
fn are_refused_like_surfaces() {
    let mut times = 0;
    let list = targeted().into_iter().map(|one| one.file);
    for file in list.chain((0..6_000).map(mutation)) {
        let Err(refusal) = rules(&file) else {
            continue;
        };
        let (other, some) = exchanged(&file);
        if some > 0 && file[8..12] == *b"LWO2" {
            assert_eq!(rules(&other).expect_err("a refused file"), refusal);
            times += 1;
        }
    }
    assert!(times > 500, "{times}");
}

/// A file without its PTAG chunks of this type.
fn without(parts: &Parts, kind: &[u8; 4]) -> Parts {
    let mut fewer = parts.clone();
    let of_kind = |chunk: &Vec<u8>| chunk.starts_with(b"PTAG") && &chunk[8..12] == kind;
    fewer.chunks.retain(|chunk| !of_kind(chunk));
    fewer
}

/// Without its PART chunks a file has no parts, and all else is the same;
/// without its SURF chunks it has no surfaces.
#[test]
fn are_not_surfaces() {
    let mut changed = [0, 0];
    for seed in 0..2_000 {
        let parts = valid(&mut Random::new(seed)).parts;
        if parts.kind == Kind::Lwob {
            continue;
        }
        let (answer, tables) = accepted(&parts.file());
        for (number, (word, kind)) in [(2, b"SURF"), (3, b"PART")].into_iter().enumerate() {
            let mut expected = tables.clone();
            for entry in expected.polygons.chunks_exact_mut(POLYGON_WORDS) {
                entry[word] = 0;
            }
            let (same, fewer) = accepted(&without(&parts, kind).file());
            assert_eq!(same, answer, "seed {seed}");
            assert_eq!(fewer, expected, "seed {seed}");
            changed[number] += u64::from(expected != tables);
        }
    }
    assert!(changed.iter().all(|&times| times > 150), "{changed:?}");
}

/// "LWOB gives 0".
#[test]
fn are_none_in_lwob() {
    let mut polygons = 0;
    for seed in 0..2_000 {
        let parts = valid(&mut Random::new(seed)).parts;
        if parts.kind == Kind::Lwob {
            let mesh = mesh_of(&parts.file());
            assert!(mesh.polygons.iter().all(|polygon| polygon.part == 0));
            polygons += mesh.polygons.len();
        }
    }
    assert!(polygons > 1_000, "{polygons}");
}

/// The listing tells each polygon's part "before ` vertices`".
#[test]
fn are_listed() {
    let mut listed = 0;
    for seed in 0..2_000 {
        let file = valid(&mut Random::new(seed)).parts.file();
        let mesh = mesh_of(&file);
        let text = listing(&file);
        if !text.starts_with("accepted\n") {
            continue;
        }
        for (line, polygon) in text.lines().skip(8).zip(&mesh.polygons) {
            let words = format!(
                " surface {} part {} vertices ",
                polygon.surface, polygon.part
            );
            assert!(line.contains(&words), "seed {seed}: {line}");
            listed += u64::from(polygon.part != 0);
        }
    }
    assert!(listed > 300, "{listed}");
}
