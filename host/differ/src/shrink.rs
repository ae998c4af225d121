//! Making a case that fails small, by leaving out parts while it still fails.

use std::ops::Range;
use std::time::{Duration, Instant};

use cases::assemble::{chunk, Tag};
use cases::insert::{chunk_spans, correct_form_length};
use lwo::{POINT_WORDS, POLYGON_WORDS, RECORD_WORDS};
use second::Tables;

/// After so many tries, or so much time, the case is small enough.
const TRIES: usize = 3_000;
const TIME: Duration = Duration::from_secs(20);

/// A file that still fails, with whole chunks and then bytes left out.
pub fn file(file: Vec<u8>, fails: impl Fn(&[u8]) -> bool) -> Vec<u8> {
    let mut search = Search::new(file, |file: &Vec<u8>| fails(file));
    while search.improve(|file| without_a_chunk(file))
        || search.improve(|file| without_body_bytes(file))
        || search.improve(|file| without_bytes(file))
    {}
    search.smallest
}

/// Tables that still fail, with polygons, names and entries left out, and with
/// polygons of no surface and no part.
pub fn mesh(tables: Tables, fails: impl Fn(&Tables) -> bool) -> Tables {
    let mut search = Search::new(tables, fails);
    while search.improve(without_a_polygon)
        || search.improve(without_a_tag)
        || search.improve(without_last_name)
        || search.improve(without_last_entry)
    {}
    search.smallest
}

/// The cases that are a little smaller than one.
type Smaller<T> = for<'a> fn(&'a T) -> Box<dyn Iterator<Item = T> + 'a>;

struct Search<T, F> {
    smallest: T,
    fails: F,
    tries: usize,
    end: Instant,
}

impl<T, F: Fn(&T) -> bool> Search<T, F> {
    fn new(case: T, fails: F) -> Search<T, F> {
        Search {
            smallest: case,
            fails,
            tries: TRIES,
            end: Instant::now() + TIME,
        }
    }

    /// Takes the first smaller case that fails too; whether there was one.
    fn improve(&mut self, smaller: Smaller<T>) -> bool {
        let mut found = None;
        for case in smaller(&self.smallest).take(self.tries) {
            self.tries -= 1;
            if Instant::now() >= self.end {
                break;
            }
            if (self.fails)(&case) {
                found = Some(case);
                break;
            }
        }
        let improved = found.is_some();
        if let Some(case) = found {
            self.smallest = case;
        }
        improved
    }
}

fn without_a_chunk(file: &[u8]) -> Box<dyn Iterator<Item = Vec<u8>> + '_> {
    let spans = chunk_spans(file).into_iter();
    Box::new(spans.map(|span| without(file, span.start, span.end)))
}

/// Each chunk with a shorter body, and its length and pad as they then are.
fn without_body_bytes(file: &[u8]) -> Box<dyn Iterator<Item = Vec<u8>> + '_> {
    let spans = chunk_spans(file).into_iter();
    Box::new(spans.flat_map(move |span| {
        let (tag, rest) = file[span.clone()].split_at(4);
        let tag: Tag = tag.try_into().expect("four bytes");
        let length: [u8; 4] = rest[..4].try_into().expect("four bytes");
        let body = &rest[4..4 + u32::from_be_bytes(length) as usize];
        parts(body.len()).map(move |(start, end)| {
            let shorter = [&body[..start], &body[end..]].concat();
            let chunk = chunk(&tag, &shorter);
            let mut smaller = [&file[..span.start], &chunk, &file[span.end..]].concat();
            correct_form_length(&mut smaller);
            smaller
        })
    }))
}

fn without_bytes(file: &[u8]) -> Box<dyn Iterator<Item = Vec<u8>> + '_> {
    Box::new(parts(file.len()).map(|(start, end)| without(file, start, end)))
}

/// Starts and ends of spans of falling length: half of the whole, a quarter,
/// down to one, at every multiple of the length.
fn parts(whole: usize) -> impl Iterator<Item = (usize, usize)> {
    let half = whole.div_ceil(2).max(1);
    let lengths = std::iter::successors(Some(half), |&length| Some(length / 2));
    let lengths = lengths.take_while(|&length| length > 0);
    lengths.flat_map(move |length| {
        let starts = (0..whole).step_by(length);
        starts.map(move |start| (start, (start + length).min(whole)))
    })
}

/// A file without some bytes, its FORM length put right.
fn without(file: &[u8], start: usize, end: usize) -> Vec<u8> {
    let mut smaller = [&file[..start], &file[end..]].concat();
    correct_form_length(&mut smaller);
    smaller
}

/// Each polygon with its vertices, as the table counts them.
fn without_a_polygon(tables: &Tables) -> Box<dyn Iterator<Item = Tables> + '_> {
    let mut first = 0;
    let entries = tables.polygons.chunks_exact(POLYGON_WORDS).enumerate();
    Box::new(entries.map(move |(number, entry)| {
        let mut smaller = tables.clone();
        let start = POLYGON_WORDS * number;
        smaller.polygons.drain(start..start + POLYGON_WORDS);
        let all = tables.vertices.len();
        let start = all.min(first);
        first = first.saturating_add(entry[1] as usize);
        smaller.vertices.drain(start..all.min(first));
        smaller
    }))
}

/// The words of a polygon that are its surface and its part.
const TAGS: Range<usize> = 2..POLYGON_WORDS;

/// Each surface and each part that a polygon has, made none.
fn without_a_tag(tables: &Tables) -> Box<dyn Iterator<Item = Tables> + '_> {
    let words = tables.polygons.iter().enumerate();
    let tags = words.filter(|&(at, &word)| TAGS.contains(&(at % POLYGON_WORDS)) && word != 0);
    Box::new(tags.map(|(at, _)| {
        let mut smaller = tables.clone();
        smaller.polygons[at] = 0;
        smaller
    }))
}

/// The last name with its bytes and its record. Polygons keep the numbers of
/// their names; if the case no longer fails for that, it is not taken.
fn without_last_name(tables: &Tables) -> Box<dyn Iterator<Item = Tables> + '_> {
    let last = tables.names.last();
    Box::new(last.into_iter().map(|&length| {
        let mut smaller = tables.clone();
        cut(&mut smaller.names, 1);
        cut(&mut smaller.name_bytes, length as usize);
        cut(&mut smaller.records, RECORD_WORDS);
        smaller
    }))
}

/// The last point, or the last word or byte of one table.
fn without_last_entry(tables: &Tables) -> Box<dyn Iterator<Item = Tables> + '_> {
    let shorten: [fn(&mut Tables); 7] = [
        |tables| cut(&mut tables.points, POINT_WORDS),
        |tables| cut(&mut tables.points, 1),
        |tables| cut(&mut tables.polygons, 1),
        |tables| cut(&mut tables.vertices, 1),
        |tables| cut(&mut tables.names, 1),
        |tables| cut(&mut tables.name_bytes, 1),
        |tables| cut(&mut tables.records, 1),
    ];
    let cases = shorten.into_iter().map(|shorten| {
        let mut smaller = tables.clone();
        shorten(&mut smaller);
        smaller
    });
    // A table that is empty has nothing to leave out.
    Box::new(cases.filter(move |smaller| smaller != tables))
}

fn cut<T>(table: &mut Vec<T>, elements: usize) {
    table.truncate(table.len().saturating_sub(elements));
}

#[cfg(test)]
mod tests {
    use super::*;
    use cases::assemble::{form, join, Kind};

    #[test]
    fn a_file_keeps_what_makes_it_fail() {
        let chunks = [
            chunk(b"TEXT", b"abc"),
            chunk(b"ABCD", b"xyz"),
            chunk(b"MORE", b""),
        ];
        let whole = form(Kind::Lwo2, &join(&chunks));
        let small = file(whole, |file| file.windows(2).any(|pair| pair == b"yz"));
        assert_eq!(small, b"yz");
    }

    /// What makes it fail lies inside a chunk that has to stay well formed.
    #[test]
    fn a_body_is_shortened() {
        let chunks = [chunk(b"TEXT", b"abc"), chunk(b"ABCD", b"uvwxyz")];
        let whole = form(Kind::Lwo2, &join(&chunks));
        let fails = |file: &[u8]| {
            let spans = chunk_spans(file);
            spans.iter().any(|span| file[span.clone()].contains(&b'x'))
        };
        let small = file(whole, fails);
        assert!(small.len() <= 22, "{small:02x?}");
        assert!(fails(&small));
    }

    #[test]
    fn a_mesh_keeps_what_makes_it_fail() {
        let whole = Tables {
            points: vec![1; 12],
            polygons: vec![1, 2, 0, 1, 1, 1, 1, 0],
            vertices: vec![0, 1, 3],
            names: vec![2],
            name_bytes: b"ab".to_vec(),
            records: vec![0; RECORD_WORDS],
        };
        let small = mesh(whole, |tables| tables.vertices.contains(&3));
        assert_eq!(small.vertices.last(), Some(&3));
        let rest = Tables {
            vertices: Vec::new(),
            ..small
        };
        assert_eq!(rest, Tables::default());
    }

    /// What makes it fail is the part of its second polygon.
    #[test]
    fn a_polygon_keeps_the_part_that_makes_it_fail() {
        let whole = Tables {
            points: vec![1; 6],
            polygons: vec![1, 1, 1, 1, 2, 1, 2, 2],
            vertices: vec![0, 1],
            names: vec![1, 1],
            name_bytes: b"ab".to_vec(),
            records: vec![0; 2 * RECORD_WORDS],
        };
        let entries = |tables: &Tables| {
            let entries = tables.polygons.chunks_exact(POLYGON_WORDS);
            entries.map(<[u32]>::to_vec).collect::<Vec<_>>()
        };
        let small = mesh(whole, |tables| {
            entries(tables).iter().any(|entry| entry[3] == 2)
        });
        assert_eq!(entries(&small), [[2, 1, 0, 2]]);
    }
}
