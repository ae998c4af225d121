//! Random valid files with the mesh that each must give.
//!
//! The generator keeps the expected mesh as it goes: every chunk is chosen
//! from what the rules allow at that place, and what it means is noted before
//! its bytes are made.

use crate::assemble::{Kind, Parts};
use crate::floats::finite;
use crate::names;
use crate::plain::{PlainMesh, PlainRecord, UNDEFINED};
use crate::random::Random;
use crate::unlisted::unlisted_chunk;
use crate::{lwo2, lwob};

/// A valid file and what it must give.
#[derive(Clone, Debug)]
pub struct Valid {
    pub parts: Parts,
    pub mesh: PlainMesh,
    pub skipped: u64,
    pub details: u64,
}

/// A random valid file of either kind.
pub fn valid(random: &mut Random) -> Valid {
    if random.once_in(2) {
        lwob::valid(random)
    } else {
        lwo2::valid(random)
    }
}

/// A file that is being put together.
pub struct Draft {
    parts: Parts,
    pub mesh: PlainMesh,
    /// The names that TAGS or SRFS lists, whether it has come yet or not.
    pub names: Vec<Vec<u8>>,
    /// The names and records of the SURF chunks so far, in file order.
    surfs: Vec<(Vec<u8>, PlainRecord)>,
    skipped: u64,
    pub details: u64,
}

impl Draft {
    pub fn new(kind: Kind, names: Vec<Vec<u8>>) -> Draft {
        Draft {
            parts: Parts {
                kind,
                chunks: Vec::new(),
            },
            mesh: PlainMesh::default(),
            names,
            surfs: Vec::new(),
            skipped: 0,
            details: 0,
        }
    }

    pub fn add(&mut self, chunk: Vec<u8>) {
        self.parts.chunks.push(chunk);
    }

    pub fn add_surf(&mut self, name: Vec<u8>, record: PlainRecord, chunk: Vec<u8>) {
        self.surfs.push((name, record));
        self.add(chunk);
    }

    pub fn add_unlisted(&mut self, random: &mut Random) {
        let chunk = unlisted_chunk(random, self.parts.kind);
        self.skipped += 1;
        self.add(chunk);
    }

    /// The file as it stands. `listed` says whether the names' chunk came.
    pub fn finish(mut self, listed: bool) -> Valid {
        if listed {
            for name in &self.names {
                let record = standing(&self.surfs, name);
                self.mesh.add_name(name, &record);
            }
        }
        Valid {
            parts: self.parts,
            mesh: self.mesh,
            skipped: self.skipped,
            details: self.details,
        }
    }

    /// A name for a SURF or a layer: mostly a listed one, else any, be it empty
    /// or long.
    pub fn some_name(&self, random: &mut Random) -> Vec<u8> {
        match random.below(10) {
            0 => Vec::new(),
            1 => {
                let length = random.between(256, 700);
                names::name_of(random, length as usize)
            }
            2 => names::listable(random),
            _ if self.names.is_empty() => names::listable(random),
            _ => random.pick(&self.names).clone(),
        }
    }
}

/// "the last SURF of a name stands, for the name anywhere in the file".
fn standing(surfs: &[(Vec<u8>, PlainRecord)], name: &[u8]) -> PlainRecord {
    let of_name = surfs.iter().rev().find(|(other, _)| other == name);
    of_name.map_or(UNDEFINED, |&(_, record)| record)
}

/// How many points a list gets: sometimes none, sometimes many.
pub fn point_count(random: &mut Random) -> usize {
    match random.below(10) {
        0 => 0,
        1 => random.index(300),
        _ => 1 + random.index(12),
    }
}

/// So many points' coordinates.
pub fn coordinates(random: &mut Random, points: usize) -> Vec<u32> {
    (0..points * 3).map(|_| finite(random)).collect()
}

/// Vertices below a bound, mostly few, now and then as many as are allowed.
pub fn corners(random: &mut Random, points: u32, most: usize) -> Vec<u32> {
    let count = if random.once_in(40) {
        most
    } else {
        1 + random.index(6)
    };
    (0..count)
        .map(|_| random.below(u64::from(points)) as u32)
        .collect()
}

/// The last body under a tag among a SURF's sub-chunks: "a repeated
/// sub-chunk's last value stands".
pub fn last_body<'a>(subs: &'a [([u8; 4], Vec<u8>)], tag: &[u8; 4]) -> Option<&'a [u8]> {
    let of_tag = subs.iter().rev().find(|(other, _)| other == tag);
    of_tag.map(|(_, body)| &body[..])
}

/// The four bytes at an offset of a body as a word.
pub fn word_at(body: &[u8], at: usize) -> u32 {
    let bytes: [u8; 4] = body[at..at + 4].try_into().expect("four bytes");
    u32::from_be_bytes(bytes)
}
