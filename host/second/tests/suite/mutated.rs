//! Mutated files: the reader answers each, a refusal changes nothing, and
//! what is accepted is a mesh whose canonical file reads back.

use std::collections::BTreeMap;

use cases::random::Random;
use cases::valid::valid;
use second::{canonical, is_mesh, listing, read, rules, Answer, Tables};

use crate::help::{accepted, filled_room, mutation, needs};
use crate::places::check_place;

const FILES: u64 = 40_000;

#[test]
fn are_refused_or_read_whole() {
    let mut numbers: BTreeMap<u64, u64> = BTreeMap::new();
    for seed in 0..FILES {
        let file = mutation(seed);
        let answer = needs(&file);
        if answer.number == 0 || answer.number == 16 {
            check_accepted(seed, &file);
            *numbers.entry(0).or_default() += 1;
        } else {
            check_refused(seed, &file, &answer);
            *numbers.entry(answer.number).or_default() += 1;
        }
    }
    // The mutations must reach most refusals, or they test little.
    for number in (0..=15).chain([19, 20, 22]).filter(|&number| number != 1) {
        let seen = numbers.get(&number).copied().unwrap_or(0);
        assert!(seen >= 10, "number {number} came {seen} times");
    }
}

fn check_accepted(seed: u64, file: &[u8]) {
    let (answer, tables) = accepted(file);
    assert!(is_mesh(&tables), "seed {seed}");
    let mesh = second::Mesh::from_tables(&tables);
    let (again, same) = accepted(&canonical(&mesh));
    assert_eq!(same, tables, "seed {seed}");
    assert_eq!(again.vertices, answer.vertices, "seed {seed}");
}

fn check_refused(seed: u64, file: &[u8], told: &Answer) {
    let room = Answer {
        points: 400,
        polygons: 50,
        vertices: 4_000,
        names: 10,
        name_bytes: 2_000,
        ..Answer::default()
    };
    let before = filled_room(&room, [0; 6]);
    let mut tables = before.clone();
    assert_eq!(&read(file, &mut tables), told, "seed {seed}");
    assert_eq!(tables, before, "seed {seed}");
    let only_told = Answer {
        number: told.number,
        place: told.place,
        ..Answer::default()
    };
    assert_eq!(told, &only_told, "seed {seed}");
    let line = format!("refused {} at {}\n", told.number, told.place);
    assert_eq!(listing(file), line, "seed {seed}");
    check_place(file, &format!("seed {seed}"));
}

/// How often each number is told of a chunk with this tag.
fn numbers_of(tag: &[u8; 4]) -> BTreeMap<u64, u64> {
    numbers_where(|chunk| chunk.starts_with(tag))
}

/// The same of the chunks of which this holds, the rest of the file behind them.
fn numbers_where(holds: impl Fn(&[u8]) -> bool) -> BTreeMap<u64, u64> {
    let mut numbers = BTreeMap::new();
    for file in (0..FILES).map(mutation) {
        if let Err(refusal) = rules(&file) {
            if holds(&file[refusal.chunk as usize..]) {
                *numbers.entry(refusal.number()).or_default() += 1;
            }
        }
    }
    numbers
}

/// Every chunk in which a VX is read is refused for a small index in the long
/// form.
#[test]
fn are_refused_for_their_indices() {
    for tag in [b"POLS", b"PTAG", b"SURF"] {
        let times = numbers_of(tag).get(&22).copied().unwrap_or(0);
        assert!(times >= 30, "{tag:?} {times}");
    }
}

/// Every refusal that pairs can have comes up in a PTAG of type PART as in one
/// of type SURF, and 4 and 5 for their header.
#[test]
fn are_refused_for_their_taggings() {
    for kind in [b"SURF", b"PART"] {
        let numbers =
            numbers_where(|chunk| chunk.starts_with(b"PTAG") && chunk.get(8..12) == Some(kind));
        let told: Vec<u64> = numbers.keys().copied().collect();
        assert_eq!(told, [4, 5, 10, 11, 19, 22], "{kind:?} {numbers:?}");
        assert!(numbers.values().all(|&times| times >= 10), "{numbers:?}");
    }
}

/// Every refusal that a LAYR can have comes up, and 4 for its header.
#[test]
fn are_refused_for_their_layers() {
    let numbers = numbers_of(b"LAYR");
    let told: Vec<u64> = numbers.keys().copied().collect();
    assert_eq!(told, [4, 6, 7, 19, 20], "{numbers:?}");
    assert!(numbers.values().all(|&times| times >= 10), "{numbers:?}");
}

/// Every beginning of a valid file, as it is and with its FORM length put
/// right.
#[test]
fn beginnings_are_answered() {
    let mut accepted_ones = 0;
    for seed in 0..60 {
        let file = valid(&mut Random::new(seed)).parts.file();
        for length in 0..file.len() {
            let mut beginning = file[..length].to_vec();
            let expected = if length < 12 { 2 } else { 3 };
            let answer = read(&beginning, &mut Tables::default());
            assert_eq!((answer.number, answer.place), (expected, 0));
            cases::insert::correct_form_length(&mut beginning);
            let number = needs(&beginning).number;
            accepted_ones += u64::from(number == 0 || number == 16);
        }
    }
    assert!(accepted_ones > 60);
}
