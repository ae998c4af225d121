//! The two calls of `lent.rs`, which are the crate's only `unsafe`: each is given just the slices
//! that it is lent, none longer or shorter by an element. `tests/mutants` sees that these tests
//! fail for every length and pointer that is off by one.

use std::array::from_fn;
use std::fs;
use std::ops::Range;
use std::path::Path;

use lwo::lent::{read, write, LwoAnswer, LwoWritten};
use lwo::{Mesh, Tables, POINT_WORDS, POLYGON_WORDS, RECORD_WORDS};

/// Elements on each side of what is lent that nobody may change. Also a record that were put one
/// element too far would end here.
const GUARD: usize = 2 * RECORD_WORDS;

/// Neither a word nor a byte that the sample has.
const GUARD_WORD: u32 = 0xa5a5_a5a5;
const GUARD_BYTE: u8 = 0xa5;

/// Points, polygons, vertices, names and records; the bytes of the names stand apart.
const WORD_TABLES: usize = 5;

/// A file with no two tables of one length, and all of them full of something.
fn sample() -> Vec<u8> {
    let folder = Path::new(env!("CARGO_MANIFEST_DIR")).join("../../samples");
    fs::read(folder.join("panel.lwo")).expect("a sample")
}

/// What lies in memory: the lent elements, with guards before and behind them.
#[derive(Clone, Debug, PartialEq)]
struct Memory {
    words: [Vec<u32>; WORD_TABLES],
    bytes: Vec<u8>,
}

/// How many elements of each table are lent.
#[derive(Clone, Copy, Debug)]
struct Lengths {
    words: [usize; WORD_TABLES],
    bytes: usize,
}

impl Memory {
    /// The tables of a mesh between guards.
    fn holding(tables: &Tables) -> Memory {
        let Tables {
            points,
            polygons,
            vertices,
            names,
            name_bytes,
            records,
        } = tables;
        Memory {
            words: [points, polygons, vertices, names, records]
                .map(|table| around(table, GUARD_WORD)),
            bytes: around(name_bytes, GUARD_BYTE),
        }
    }

    /// Memory of the same size that holds nothing yet.
    fn empty_like(&self) -> Memory {
        Memory {
            words: from_fn(|table| vec![GUARD_WORD; self.words[table].len()]),
            bytes: vec![GUARD_BYTE; self.bytes.len()],
        }
    }

    fn lengths(&self) -> Lengths {
        Lengths {
            words: from_fn(|table| self.words[table].len() - 2 * GUARD),
            bytes: self.bytes.len() - 2 * GUARD,
        }
    }

    fn read(&mut self, file: &[u8], lengths: Lengths) -> LwoAnswer {
        let parts = lengths.words.map(lent);
        let [points, polygons, vertices, names, records] = &mut self.words;
        read(
            file,
            &mut points[parts[0].clone()],
            &mut polygons[parts[1].clone()],
            &mut vertices[parts[2].clone()],
            &mut names[parts[3].clone()],
            &mut self.bytes[lent(lengths.bytes)],
            &mut records[parts[4].clone()],
        )
    }

    fn write(&self, lengths: Lengths, out: &mut [u8]) -> LwoWritten {
        let parts = lengths.words.map(lent);
        let [points, polygons, vertices, names, records] = &self.words;
        write(
            &points[parts[0].clone()],
            &polygons[parts[1].clone()],
            &vertices[parts[2].clone()],
            &names[parts[3].clone()],
            &self.bytes[lent(lengths.bytes)],
            &records[parts[4].clone()],
            out,
        )
    }
}

impl Lengths {
    /// All the ways in which one table is longer by an element or shorter.
    fn off_by_one(self, longer: bool) -> Vec<Lengths> {
        let off = |length: usize| if longer { length + 1 } else { length - 1 };
        let mut list = vec![self; WORD_TABLES + 1];
        for (table, lengths) in list.iter_mut().enumerate() {
            match lengths.words.get_mut(table) {
                Some(words) => *words = off(*words),
                None => lengths.bytes = off(lengths.bytes),
            }
        }
        list
    }
}

fn lent(length: usize) -> Range<usize> {
    GUARD..GUARD + length
}

fn around<T: Copy>(table: &[T], guard: T) -> Vec<T> {
    [&[guard; GUARD], table, &[guard; GUARD]].concat()
}

/// The sample, its mesh in memory, and the lengths of its tables.
fn known() -> (Vec<u8>, Memory, Lengths) {
    let file = sample();
    let mesh = Mesh::read(&file).expect("it is accepted");
    let memory = Memory::holding(mesh.tables());
    let lengths = memory.lengths();
    (file, memory, lengths)
}

#[test]
fn the_tables_of_the_sample_differ_in_length_and_are_full() {
    let (_, memory, lengths) = known();
    let mut all = lengths.words.to_vec();
    all.push(lengths.bytes);
    all.sort_unstable();
    all.dedup();
    assert_eq!(all.len(), WORD_TABLES + 1, "{lengths:?}");
    assert!(all[0] > 1, "{lengths:?}");
    let entries = [POINT_WORDS, POLYGON_WORDS, 1, 1, RECORD_WORDS];
    assert!(lengths
        .words
        .iter()
        .zip(entries)
        .all(|(words, entry)| words % entry == 0));
    assert!(!memory
        .words
        .iter()
        .any(|table| table[lent(2)].contains(&GUARD_WORD)));
}

#[test]
fn just_enough_is_read_into_just_what_is_lent() {
    let (file, wanted, lengths) = known();
    let mut memory = wanted.empty_like();
    let answer = memory.read(&file, lengths);
    assert_eq!((answer.number, answer.place), (0, 0));
    assert_eq!(memory, wanted);
}

/// A length too large by one would have the reader find room.
#[test]
fn an_element_less_in_any_table_is_no_room() {
    let (file, wanted, lengths) = known();
    for shorter in lengths.off_by_one(false) {
        let mut memory = wanted.empty_like();
        assert_eq!(memory.read(&file, shorter).number, 16, "{shorter:?}");
        assert_eq!(memory, wanted.empty_like(), "{shorter:?}");
    }
}

/// The file is lent out of the middle of more bytes.
#[test]
fn the_file_is_read_to_its_end_and_no_further() {
    let (file, wanted, lengths) = known();
    let more = around(&file, 0);
    let mut memory = wanted.empty_like();
    assert_eq!(memory.read(&more[lent(file.len())], lengths).number, 0);
    for length in [file.len() - 1, file.len() + 1] {
        assert_eq!(memory.read(&more[lent(length)], lengths).number, 3);
    }
    assert_eq!(memory, wanted);
}

#[test]
fn a_mesh_is_written_from_just_what_is_lent() {
    let (file, memory, lengths) = known();
    let wanted = Mesh::read(&file)
        .and_then(|mesh| mesh.to_lwo2())
        .expect("a file");
    let mut out = vec![GUARD_BYTE; wanted.len() + 2 * GUARD];
    let written = memory.write(lengths, &mut out[lent(wanted.len())]);
    assert_eq!((written.number, written.length), (0, wanted.len() as u64));
    assert_eq!(out, around(&wanted, GUARD_BYTE));
}

#[test]
fn an_element_more_or_less_in_any_table_is_no_mesh() {
    let (_, memory, lengths) = known();
    let off = [true, false].map(|longer| lengths.off_by_one(longer));
    for lengths in off.concat() {
        let mut out = [GUARD_BYTE; 4096];
        assert_eq!(memory.write(lengths, &mut out).number, 17, "{lengths:?}");
        assert_eq!(out, [GUARD_BYTE; 4096], "{lengths:?}");
    }
}

#[test]
fn an_output_a_byte_too_short_is_no_room() {
    let (_, memory, lengths) = known();
    let needed = memory.write(lengths, &mut []).length as usize;
    let mut out = vec![GUARD_BYTE; needed + 2 * GUARD];
    let written = memory.write(lengths, &mut out[lent(needed - 1)]);
    assert_eq!((written.number, written.length), (16, needed as u64));
    assert_eq!(out, vec![GUARD_BYTE; needed + 2 * GUARD]);
}
