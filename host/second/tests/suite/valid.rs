//! Generated valid files: what each must give is said by the generator.

use std::collections::BTreeMap;

use cases::assemble::Kind;
use cases::indices::{indices, is_short};
use cases::insert::{boundaries, with_unlisted};
use cases::plain::{PlainMesh, POLYGON_WORDS};
use cases::random::Random;
use cases::valid::{valid, Valid};
use second::{canonical, is_mesh, rules, Answer, Mesh, Tables};

use crate::help::{accepted, mesh_of};

/// How many files each test reads.
const FILES: u64 = 3_000;

pub fn tables_of(mesh: &PlainMesh) -> Tables {
    Tables {
        points: mesh.points.clone(),
        polygons: mesh.polygons.clone(),
        vertices: mesh.vertices.clone(),
        names: mesh.names.clone(),
        name_bytes: mesh.name_bytes.clone(),
        records: mesh.records.clone(),
    }
}

fn expected_answer(valid: &Valid) -> Answer {
    Answer {
        number: 0,
        place: 0,
        points: u64::from(valid.mesh.point_count()),
        polygons: u64::from(valid.mesh.polygon_count()),
        vertices: valid.mesh.vertices.len() as u64,
        names: valid.mesh.names.len() as u64,
        name_bytes: valid.mesh.name_bytes.len() as u64,
        skipped: valid.skipped,
        details: valid.details,
    }
}

#[test]
fn are_accepted_with_their_mesh() {
    for seed in 0..FILES {
        let valid = valid(&mut Random::new(seed));
        let (answer, tables) = accepted(&valid.parts.file());
        assert_eq!(answer, expected_answer(&valid), "seed {seed}");
        assert_eq!(tables, tables_of(&valid.mesh), "seed {seed}");
    }
}

/// `rules` and `read` tell of the same mesh.
#[test]
fn are_the_same_in_both_forms() {
    for seed in 0..FILES {
        let valid = valid(&mut Random::new(seed));
        let (mesh, skipped, details) = rules(&valid.parts.file()).expect("a valid file");
        assert_eq!(mesh.tables(), tables_of(&valid.mesh), "seed {seed}");
        assert_eq!(Mesh::from_tables(&mesh.tables()), mesh, "seed {seed}");
        assert_eq!((skipped, details), (valid.skipped, valid.details));
    }
}

/// The canonical file of an accepted file reads as the same mesh, and is its
/// own canonical file.
#[test]
fn have_a_canonical_file_that_stands() {
    for seed in 0..FILES {
        let file = valid(&mut Random::new(seed)).parts.file();
        let (_, tables) = accepted(&file);
        assert!(is_mesh(&tables), "seed {seed}");
        let written = canonical(&mesh_of(&file));
        let (answer, again) = accepted(&written);
        assert_eq!(again, tables, "seed {seed}");
        assert_eq!((answer.skipped, answer.details), (0, 0));
        assert_eq!(canonical(&mesh_of(&written)), written, "seed {seed}");
    }
}

/// One more well-formed unlisted chunk at any boundary: the same mesh, skipped
/// and one.
#[test]
fn take_one_more_unlisted_chunk_anywhere() {
    let mut inserted = 0;
    for seed in 0..FILES / 3 {
        let mut random = Random::new(seed);
        let file = valid(&mut random).parts.file();
        let (answer, tables) = accepted(&file);
        for at in boundaries(&file) {
            let longer = with_unlisted(&mut random, &file, at);
            let (more, same) = accepted(&longer);
            assert_eq!(same, tables, "seed {seed} at {at}");
            let expected = Answer {
                skipped: answer.skipped + 1,
                ..answer
            };
            assert_eq!(more, expected, "seed {seed} at {at}");
            inserted += 1;
        }
    }
    assert!(inserted > FILES);
}

/// The generator must reach what it is for. Each count is of files among the
/// first ones, so that a change of the generator cannot lose one unseen.
#[test]
fn exercise_the_rules() {
    let files: Vec<Valid> = (0..FILES)
        .map(|seed| valid(&mut Random::new(seed)))
        .collect();
    let count = |holds: &dyn Fn(&Valid) -> bool| files.iter().filter(|one| holds(one)).count();
    let polygons = |one: &Valid, holds: &dyn Fn(&[u32]) -> bool| {
        let mut entries = one.mesh.polygons.chunks_exact(POLYGON_WORDS);
        entries.any(holds)
    };
    let records = |one: &Valid, word: usize, value: u32| {
        one.mesh
            .records
            .chunks(10)
            .any(|record| record[word] == value)
    };
    assert!(count(&|one| one.details > 0) > 100, "details");
    assert!(count(&|one| one.skipped > 0) > 1_000, "skipped");
    type Holds = fn(&[u32]) -> bool;
    let of_polygons: [(&str, usize, Holds); 6] = [
        ("patches", 300, |entry| entry[0] == 2),
        ("surfaces", 500, |entry| entry[2] != 0),
        ("parts", 300, |entry| entry[3] != 0),
        ("parts alone", 200, |entry| entry[2] == 0 && entry[3] != 0),
        ("both", 150, |entry| entry[2] != 0 && entry[3] != 0),
        ("both, by two names", 100, |entry| {
            entry[2] != 0 && entry[3] != 0 && entry[2] != entry[3]
        }),
    ];
    for (word, least, holds) in of_polygons {
        let times = count(&|one| polygons(one, &holds));
        assert!(times > least, "{word} {times}");
    }
    assert!(
        count(&|one| one.mesh.names.contains(&0)) > 100,
        "empty names"
    );
    assert!(
        count(&|one| one.mesh.names.contains(&255)) > 100,
        "long names"
    );
    assert!(count(&|one| records(one, 0, 1)) > 500, "defined");
    assert!(count(&|one| records(one, 0, 0)) > 500, "undefined");
    assert!(count(&|one| records(one, 9, 3)) > 200, "two sides");
    assert!(
        count(&|one| one.mesh.points.contains(&0x8000_0000)) > 500,
        "minus zero"
    );
    assert!(
        count(&|one| one.mesh.points.contains(&1)) > 500,
        "denormals"
    );
    assert!(
        count(&|one| one.mesh.points.contains(&0x7f7f_ffff)) > 500,
        "largest"
    );
    let tags = |one: &Valid, tag: &[u8]| {
        let with_tag = one.parts.chunks.iter().filter(|chunk| &chunk[..4] == tag);
        with_tag.count()
    };
    for tag in [b"PNTS", b"POLS", b"PTAG", b"LAYR"] {
        let several = |one: &Valid| tags(one, tag) > 1 && &one.parts.file()[8..12] == b"LWO2";
        assert!(count(&several) > 300, "several {tag:?}");
    }
    assert!(count(&|one| tags(one, b"PCHS") > 0) > 100, "PCHS");
    assert!(count(&has_long_index) > 300, "long indices");
    assert!(
        count(&has_bytes_of_one) > 300,
        "bytes of a small long index"
    );
    assert!(count(&|one| whole_layers(one) > 1) > 100, "whole layers");
}

/// The same of PTAG of type PART: where it stands beside others of its POLS.
#[test]
fn have_parts_in_every_place() {
    let mut times: BTreeMap<&str, u64> = BTreeMap::new();
    for seed in 0..FILES {
        let one = valid(&mut Random::new(seed));
        for types in taggings(&one) {
            let has = |kind: &[u8]| types.iter().any(|other| other == kind);
            let follows = |one: &[u8], later: &[u8]| {
                let mut pairs = types.windows(2);
                pairs.any(|pair| pair[0] == one && pair[1] == later)
            };
            let other = types.iter().any(|kind| kind != b"SURF" && kind != b"PART");
            let parts = types.iter().filter(|kind| *kind == b"PART").count();
            let places = [
                ("alone", types == [*b"PART"]),
                ("after a surface's", follows(b"SURF", b"PART")),
                ("before a surface's", follows(b"PART", b"SURF")),
                ("several", parts > 1),
                ("beside another type", has(b"PART") && other),
            ];
            for (place, there) in places {
                *times.entry(place).or_default() += u64::from(there);
            }
        }
    }
    assert_eq!(times.len(), 5);
    assert!(times.values().all(|&times| times > 100), "{times:?}");
}

/// The types of the PTAG chunks of each POLS of an LWO2 file.
fn taggings(one: &Valid) -> Vec<Vec<[u8; 4]>> {
    let mut lists: Vec<Vec<[u8; 4]>> = Vec::new();
    if one.parts.kind == Kind::Lwob {
        return lists;
    }
    for chunk in &one.parts.chunks {
        match &chunk[..4] {
            b"POLS" => lists.push(Vec::new()),
            b"PTAG" => {
                let kind = chunk[8..12].try_into().expect("four bytes");
                lists.last_mut().expect("a POLS before it").push(kind);
            }
            _ => {}
        }
    }
    lists
}

/// Whether an index has the long form.
fn has_long_index(one: &Valid) -> bool {
    let file = one.parts.file();
    one.parts.kind == Kind::Lwo2 && indices(&file).iter().any(|index| !is_short(&file, index))
}

/// Whether a small index in the long form could be seen where no VX is read.
fn has_bytes_of_one(one: &Valid) -> bool {
    let long = |bytes: &[u8]| bytes[..3] == [0xff, 0, 0];
    one.parts.kind == Kind::Lwo2 && one.parts.file().windows(4).any(long)
}

/// How many LAYR have a tagged list of polygons before the next one.
fn whole_layers(one: &Valid) -> usize {
    let tags: Vec<&[u8]> = one.parts.chunks.iter().map(|chunk| &chunk[..4]).collect();
    let layers = tags.split(|tag| tag == b"LAYR").skip(1);
    layers.filter(|tags| tags.contains(&&b"PTAG"[..])).count()
}
