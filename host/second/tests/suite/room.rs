//! Room: "16 is last", exactly when a table is too short, and tables that are
//! longer or hold other words never bend an answer.

use cases::random::Random;
use cases::valid::valid;
use second::{read, Answer, Tables};

use crate::help::{accepted, exact_room, filled_room, needs};

const FILES: u64 = 1_500;

/// Words past the mesh, which must stay.
fn guards(tables: &Tables, mesh: &Tables) -> bool {
    tables.points[mesh.points.len()..]
        .iter()
        .all(|&word| word == 0xdead_beef)
        && tables.polygons[mesh.polygons.len()..]
            .iter()
            .all(|&word| word == 0xdead_beef)
        && tables.vertices[mesh.vertices.len()..]
            .iter()
            .all(|&word| word == 0xdead_beef)
        && tables.names[mesh.names.len()..]
            .iter()
            .all(|&word| word == 0xdead_beef)
        && tables.name_bytes[mesh.name_bytes.len()..]
            .iter()
            .all(|&byte| byte == 0xa5)
        && tables.records[mesh.records.len()..]
            .iter()
            .all(|&word| word == 0xdead_beef)
}

fn front(tables: &Tables, mesh: &Tables) -> Tables {
    Tables {
        points: tables.points[..mesh.points.len()].to_vec(),
        polygons: tables.polygons[..mesh.polygons.len()].to_vec(),
        vertices: tables.vertices[..mesh.vertices.len()].to_vec(),
        names: tables.names[..mesh.names.len()].to_vec(),
        name_bytes: tables.name_bytes[..mesh.name_bytes.len()].to_vec(),
        records: tables.records[..mesh.records.len()].to_vec(),
    }
}

/// More room, any contents: the same answer and mesh, the rest unchanged. Some
/// tables end with part of an entry.
#[test]
fn more_of_it_changes_nothing() {
    for seed in 0..FILES {
        let mut random = Random::new(seed);
        let file = valid(&mut random).parts.file();
        let (answer, mesh) = accepted(&file);
        let more = [0; 6].map(|_: usize| random.index(25));
        let mut tables = filled_room(&answer, more);
        assert_eq!(read(&file, &mut tables), answer, "seed {seed}");
        assert_eq!(front(&tables, &mesh), mesh, "seed {seed}");
        assert!(guards(&tables, &mesh), "seed {seed}");
    }
}

/// Other words in the tables: the same answer and mesh.
#[test]
fn its_contents_change_nothing() {
    for seed in 0..FILES {
        let file = valid(&mut Random::new(seed)).parts.file();
        let (answer, mesh) = accepted(&file);
        let mut tables = mesh.clone();
        for word in tables.points.iter_mut().chain(&mut tables.records) {
            *word = word.wrapping_add(0x0101_0101);
        }
        tables.polygons.fill(u32::MAX);
        tables.names.fill(0);
        assert_eq!(read(&file, &mut tables), answer, "seed {seed}");
        assert_eq!(tables, mesh, "seed {seed}");
    }
}

/// One word less than a whole entry is one entry less.
fn one_word_less(room: &Tables) -> Vec<Tables> {
    let mut list = Vec::new();
    let mut add = |shorten: &dyn Fn(&mut Tables) -> bool| {
        let mut tables = room.clone();
        if shorten(&mut tables) {
            list.push(tables);
        }
    };
    add(&|tables| tables.points.pop().is_some());
    add(&|tables| tables.polygons.pop().is_some());
    add(&|tables| tables.vertices.pop().is_some());
    add(&|tables| tables.names.pop().is_some());
    add(&|tables| tables.name_bytes.pop().is_some());
    add(&|tables| tables.records.pop().is_some());
    list
}

/// "16 ... NO ROOM: table or output too short", "On 16 needs and counts are
/// full", and nothing is changed.
#[test]
fn one_entry_less_of_it_is_16() {
    let mut shortened = 0;
    for seed in 0..FILES {
        let file = valid(&mut Random::new(seed)).parts.file();
        let (answer, _) = accepted(&file);
        let expected = Answer {
            number: 16,
            ..answer
        };
        for mut tables in one_word_less(&exact_room(&answer)) {
            let before = tables.clone();
            assert_eq!(read(&file, &mut tables), expected, "seed {seed}");
            assert_eq!(tables, before, "seed {seed}");
            shortened += 1;
        }
    }
    assert!(shortened > FILES);
}

/// "The records table needs one entry per name": two whole records for three
/// names are too few, though every other table has room.
#[test]
fn records_need_it_too() {
    let names = cases::names::many(3);
    let strings: Vec<Vec<u8>> = names
        .iter()
        .map(|name| cases::assemble::string(name))
        .collect();
    let tags = cases::assemble::chunk(b"TAGS", &cases::assemble::join(&strings));
    let file = cases::assemble::form(cases::assemble::Kind::Lwo2, &tags);
    let needed = needs(&file);
    assert_eq!((needed.number, needed.names), (16, 3));
    for (words, number) in [(0, 16), (29, 16), (30, 0), (31, 0)] {
        let mut tables = exact_room(&needed);
        tables.records.resize(words, 7);
        assert_eq!(read(&file, &mut tables).number, number, "{words} words");
    }
}

/// A polygon has four words since #111: a table of three for each, as it was
/// before, is too short.
#[test]
fn a_polygon_needs_four_words() {
    let chunks = [
        cases::assemble::chunk(b"PNTS", &[0; 12]),
        cases::assemble::chunk(b"POLS", b"FACE\0\x01\0\0\0\x01\0\0\0\x01\0\0"),
    ];
    let content = cases::assemble::join(&chunks);
    let file = cases::assemble::form(cases::assemble::Kind::Lwo2, &content);
    let needed = needs(&file);
    assert_eq!((needed.number, needed.polygons), (16, 3));
    for (words, number) in [(0, 16), (9, 16), (11, 16), (12, 0), (13, 0)] {
        let mut tables = exact_room(&needed);
        tables.polygons.resize(words, 7);
        assert_eq!(read(&file, &mut tables).number, number, "{words} words");
    }
}

/// "NO ROOM answered before a fault further on is seen" is easy to get wrong:
/// a fault in the last chunk is told also where there is no room.
#[test]
fn a_fault_further_on_is_told_first() {
    let mut told = 0;
    for seed in 0..300 {
        let valid = valid(&mut Random::new(seed));
        let mut parts = valid.parts;
        let place = parts.offset(parts.chunks.len());
        parts.chunks.push(b"cut".to_vec());
        let answer = read(&parts.file(), &mut Tables::default());
        assert_eq!((answer.number, answer.place), (4, place), "seed {seed}");
        assert_eq!((answer.points, answer.names, answer.skipped), (0, 0, 0));
        told += u64::from(!valid.mesh.points.is_empty());
    }
    assert!(told > 100);
}
