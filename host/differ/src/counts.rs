//! What a run did, in one line.

use std::fmt;

use crate::reading::Reading;
use crate::writing::Writing;

/// The numbers up to that of request #107, with 0 for accepted.
const NUMBERS: usize = 23;

/// How many files and meshes there were, by the number that each answers where
/// there is room, and how often they were read and written.
#[derive(Clone, Debug, Default, PartialEq, Eq)]
pub struct Counts {
    pub files: [u64; NUMBERS],
    pub reads: u64,
    pub reads_no_room: u64,
    pub meshes: [u64; NUMBERS],
    pub writes: u64,
    pub writes_no_room: u64,
}

impl Counts {
    pub fn add_reading(&mut self, reading: &Reading) {
        self.files[reading.answer.number as usize] += 1;
        self.reads += reading.reads;
        self.reads_no_room += reading.no_room;
    }

    pub fn add_writing(&mut self, writing: &Writing) {
        self.meshes[writing.number as usize] += 1;
        self.writes += writing.writes;
        self.writes_no_room += writing.no_room;
    }

    pub fn add(&mut self, other: &Counts) {
        for number in 0..NUMBERS {
            self.files[number] += other.files[number];
            self.meshes[number] += other.meshes[number];
        }
        self.reads += other.reads;
        self.reads_no_room += other.reads_no_room;
        self.writes += other.writes;
        self.writes_no_room += other.writes_no_room;
    }

    pub fn file_count(&self) -> u64 {
        self.files.iter().sum()
    }

    pub fn mesh_count(&self) -> u64 {
        self.meshes.iter().sum()
    }
}

impl fmt::Display for Counts {
    fn fmt(&self, out: &mut fmt::Formatter) -> fmt::Result {
        write!(
            out,
            "files {} (accepted {}, refused{}), reads {} (no room {}), \
             meshes {} (written {}, refused{}), writes {} (no room {})",
            self.file_count(),
            self.files[0],
            by_number(&self.files),
            self.reads,
            self.reads_no_room,
            self.mesh_count(),
            self.meshes[0],
            by_number(&self.meshes),
            self.writes,
            self.writes_no_room,
        )
    }
}

/// How many were refused by each number that came.
fn by_number(counts: &[u64; NUMBERS]) -> String {
    let refused = counts.iter().enumerate().skip(1);
    let some = refused.filter(|(_, &count)| count > 0);
    let words: Vec<String> = some
        .map(|(number, count)| format!(" {number}:{count}"))
        .collect();
    if words.is_empty() {
        String::from(" none")
    } else {
        words.concat()
    }
}
