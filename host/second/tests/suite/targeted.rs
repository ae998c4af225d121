//! The catalogue of targeted files: each must answer the number and the place
//! that the catalogue states from the documents.

use cases::targeted::targeted;
use second::{listing, read, rules, Answer};

use crate::help::filled_room;

#[test]
fn are_refused_as_stated() {
    let list = targeted();
    assert!(list.len() > 1_000, "{}", list.len());
    for one in list {
        let answer = read(&one.file, &mut Default::default());
        let expected = Answer {
            number: one.number,
            place: one.place,
            ..Answer::default()
        };
        assert_eq!(answer, expected, "{}", one.name);
        let line = format!("refused {} at {}\n", one.number, one.place);
        assert_eq!(listing(&one.file), line, "{}", one.name);
    }
}

/// The chunk at fault is not told, but carried.
#[test]
fn carry_their_chunk() {
    for one in targeted() {
        let refusal = rules(&one.file).expect_err("a refused file");
        assert_eq!(refusal.number(), one.number, "{}", one.name);
        assert_eq!(refusal.place(), one.place, "{}", one.name);
        assert_eq!(refusal.chunk, one.chunk, "{}", one.name);
    }
}

/// A refusal changes no word of any table, however long the tables are.
#[test]
fn change_no_table() {
    let room = Answer {
        points: 20,
        polygons: 20,
        vertices: 300,
        names: 10,
        name_bytes: 600,
        ..Answer::default()
    };
    let before = filled_room(&room, [1; 6]);
    for one in targeted() {
        let mut tables = before.clone();
        let answer = read(&one.file, &mut tables);
        assert_eq!(answer.number, one.number, "{}", one.name);
        assert_eq!(tables, before, "{}", one.name);
    }
}
