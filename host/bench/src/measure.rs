//! The best time of several rounds. In each round everything is run once, one
//! after the other, so that what else the machine does slows all alike. Tables
//! and output are cleared before each call, outside the measured time, so that
//! every page of them is there and no call pays for it.

use std::hint::black_box;
use std::time::{Duration, Instant};

use second::Tables;

use crate::inputs::Work;
use crate::library;

/// The best times of one kind of work, and the bytes read or written.
pub struct Times {
    pub bytes: usize,
    pub proved: Duration,
    pub second: Duration,
    pub copy: Duration,
}

impl Times {
    fn none(bytes: usize) -> Times {
        Times {
            bytes,
            proved: Duration::MAX,
            second: Duration::MAX,
            copy: Duration::MAX,
        }
    }

    fn keep_best(&mut self, other: &Times) {
        self.proved = self.proved.min(other.proved);
        self.second = self.second.min(other.second);
        self.copy = self.copy.min(other.copy);
    }
}

/// Reading several files that are compared with each other: in each round
/// every one is read once.
pub fn read_all(works: &[Work], rounds: u32) -> Result<Vec<Times>, String> {
    let lengths = works.iter().map(|work| work.file.len());
    let mut best: Vec<Times> = lengths.map(Times::none).collect();
    for _ in 0..rounds {
        for (times, work) in best.iter_mut().zip(works) {
            times.keep_best(&read(work, 1)?);
        }
    }
    Ok(best)
}

/// Reading: into tables of just the right size. A library that reads another
/// mesh is an error, because then it does not do the same work.
pub fn read(work: &Work, rounds: u32) -> Result<Times, String> {
    let mut tables = empty_like(&work.mesh);
    let mut words = vec![0; work.file.len() / 4];
    let mut best = Times::none(work.file.len());
    for _ in 0..rounds {
        clear_tables(&mut tables);
        let time = timed(|| library::read(black_box(&work.file), &mut tables));
        if tables != work.mesh {
            return Err(format!("{}: the library reads another mesh", work.name));
        }
        best.proved = best.proved.min(time);

        clear_tables(&mut tables);
        let time = timed(|| second::read(black_box(&work.file), &mut tables));
        best.second = best.second.min(time);

        words.fill(0);
        let time = timed(|| swap_in(black_box(&work.file), &mut words));
        best.copy = best.copy.min(time);
    }
    Ok(best)
}

/// Writing: the canonical file into output of just the right size. A library
/// that writes another file is an error.
pub fn write(work: &Work, rounds: u32) -> Result<Times, String> {
    let length = second::write(&work.mesh, &mut []).length as usize;
    let mut expected = vec![0; length];
    second::write(&work.mesh, &mut expected);
    let words = vec![0x3f80_0000u32; length / 4];
    let mut out = vec![0; length];
    let mut best = Times::none(length);
    for _ in 0..rounds {
        out.fill(0);
        let time = timed(|| library::write(black_box(&work.mesh), &mut out));
        if out != expected {
            return Err(format!("{}: the library writes another file", work.name));
        }
        best.proved = best.proved.min(time);

        out.fill(0);
        let time = timed(|| second::write(black_box(&work.mesh), &mut out));
        best.second = best.second.min(time);

        out.fill(0);
        let time = timed(|| swap_out(black_box(&words), &mut out));
        best.copy = best.copy.min(time);
    }
    Ok(best)
}

fn timed<T>(call: impl FnOnce() -> T) -> Duration {
    let start = Instant::now();
    black_box(call());
    start.elapsed()
}

/// Every four bytes of a file as a word, high byte first.
pub fn swap_in(file: &[u8], words: &mut [u32]) {
    let (quads, _) = file.as_chunks::<4>();
    for (word, &quad) in words.iter_mut().zip(quads) {
        *word = u32::from_be_bytes(quad);
    }
}

/// Every word as four bytes, high byte first.
pub fn swap_out(words: &[u32], out: &mut [u8]) {
    let (quads, _) = out.as_chunks_mut::<4>();
    for (quad, word) in quads.iter_mut().zip(words) {
        *quad = word.to_be_bytes();
    }
}

/// Tables of the same lengths, all zero.
pub fn empty_like(tables: &Tables) -> Tables {
    Tables {
        points: vec![0; tables.points.len()],
        polygons: vec![0; tables.polygons.len()],
        vertices: vec![0; tables.vertices.len()],
        names: vec![0; tables.names.len()],
        name_bytes: vec![0; tables.name_bytes.len()],
        records: vec![0; tables.records.len()],
    }
}

fn clear_tables(tables: &mut Tables) {
    tables.points.fill(0);
    tables.polygons.fill(0);
    tables.vertices.fill(0);
    tables.names.fill(0);
    tables.name_bytes.fill(0);
    tables.records.fill(0);
}

#[cfg(test)]
mod tests {
    use super::*;

    #[test]
    fn words_go_in_and_out() {
        let bytes = [1, 2, 3, 4, 0xff, 0, 0, 5];
        let mut words = [0; 2];
        swap_in(&bytes, &mut words);
        assert_eq!(words, [0x0102_0304, 0xff00_0005]);
        let mut out = [0; 8];
        swap_out(&words, &mut out);
        assert_eq!(out, bytes);
    }
}
