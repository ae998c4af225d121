//! What has been found in a file so far.
//!
//! The lists grow chunk by chunk and are this reader's own; a lent table is
//! filled only when the whole file is accepted.

use std::collections::HashMap;

use crate::chunks::Chunk;
use crate::items::Cursor;
use crate::limits::NAME_BYTES;
use crate::refusal::{Fault, Flaw};
use crate::surface::{Record, Surf, UNDEFINED};

/// The words of a polygon in the lent table: kind, vertex count, surface, and by
/// #111 the part: "A polygon gains a fourth number".
pub const POLYGON_WORDS: usize = 4;

/// The words of a point in the lent table.
pub const POINT_WORDS: usize = 3;

/// "kind (1 face, 2 patch)".
pub const FACE: u32 = 1;
pub const PATCH: u32 = 2;

/// What a polygon is tagged with. #111: "Modellers mark "head" and "saddle" with
/// PTAG of type PART."
#[derive(Clone, Copy, Debug, PartialEq, Eq)]
pub enum Tagged {
    Surface,
    Part,
}

impl Tagged {
    /// Both, in the order of the canonical file.
    pub const ALL: [Tagged; 2] = [Tagged::Surface, Tagged::Part];

    /// The type that a PTAG has for it.
    pub fn kind(self) -> &'static [u8; 4] {
        match self {
            Tagged::Surface => b"SURF",
            Tagged::Part => b"PART",
        }
    }

    /// What a PTAG of this type tags polygons with, if that is kept.
    pub fn of_kind(kind: &[u8; 4]) -> Option<Tagged> {
        Tagged::ALL.into_iter().find(|one| one.kind() == kind)
    }

    /// The number of a polygon's entry that has it: "0 for none, else counted
    /// from 1 in TAGS".
    pub fn number(self, entry: &[u32; POLYGON_WORDS]) -> u32 {
        entry[self.word()]
    }

    fn word(self) -> usize {
        match self {
            Tagged::Surface => 2,
            Tagged::Part => 3,
        }
    }
}

/// A latest list: where it begins in the list of the whole file, and how long
/// it is.
#[derive(Clone, Copy, Debug)]
pub struct Latest {
    pub first: u32,
    pub count: u32,
}

/// The lists, the counts, and what later chunks depend on.
#[derive(Default)]
pub struct Found<'a> {
    pub points: Vec<u32>,
    pub polygons: Vec<u32>,
    pub vertices: Vec<u32>,
    pub names: Vec<&'a [u8]>,
    /// The number of each name, from 0.
    numbers: HashMap<&'a [u8], u32>,
    pub surfs: Vec<Surf<'a>>,
    /// The latest PNTS, if there is one; in LWO2, if the layer has one.
    pub latest_points: Option<Latest>,
    /// The latest POLS, if the layer has one (LWO2).
    pub latest_polygons: Option<Latest>,
    /// Whether TAGS (LWO2) or SRFS (LWOB) has come, be it empty.
    pub names_listed: bool,
    pub skipped: u64,
    pub details: u64,
}

impl<'a> Found<'a> {
    pub fn point_count(&self) -> usize {
        self.points.len() / POINT_WORDS
    }

    pub fn polygon_count(&self) -> usize {
        self.polygons.len() / POLYGON_WORDS
    }

    pub fn name_bytes(&self) -> usize {
        self.names.iter().map(|name| name.len()).sum()
    }

    /// PNTS in both kinds: "12 bytes a point". The list becomes the latest;
    /// its length was judged by the caller.
    pub fn add_points(&mut self, file: &'a [u8], chunk: &Chunk) -> Result<(), Flaw> {
        let first = self.point_count() as u32;
        let count = (chunk.length() / 12) as u32;
        self.points.reserve_exact(chunk.length() / 4);
        let mut cursor = chunk.cursor(file);
        while !cursor.is_done() {
            let bits = cursor.float()?;
            self.points.push(bits);
        }
        self.latest_points = Some(Latest { first, count });
        Ok(())
    }

    /// SRFS and TAGS: strings. 13 is "in TAGS or SRFS only: name over 255
    /// bytes, or equal to an earlier name there".
    pub fn add_names(&mut self, mut cursor: Cursor<'a>) -> Result<(), Flaw> {
        self.names_listed = true;
        while !cursor.is_done() {
            let at = cursor.at();
            let name = cursor.string()?;
            if name.len() > NAME_BYTES {
                return Err(Flaw::new(Fault::NameTooLong, at));
            }
            let number = self.names.len() as u32;
            if self.numbers.insert(name, number).is_some() {
                return Err(Flaw::new(Fault::NameTwice, at));
            }
            self.names.push(name);
        }
        Ok(())
    }

    /// Makes room for as many polygons and vertices as a list of this many
    /// bytes can hold, so that the lists need not be moved while they grow: a
    /// vertex has at least two bytes, an entry at least `smallest`.
    pub fn expect_polygons(&mut self, bytes: usize, smallest: usize) {
        self.vertices.reserve(bytes / 2);
        self.polygons.reserve(bytes / smallest * POLYGON_WORDS);
    }

    /// A polygon has no part until a PTAG gives it one; "LWOB gives 0".
    pub fn add_polygon(&mut self, kind: u32, count: u32, surface: u32) {
        self.polygons.extend_from_slice(&[kind, count, surface, 0]);
    }

    /// "The last tag for a polygon stands (house)", and of PART's too "the last
    /// stands": the surface or the part of the file's polygon of this number is
    /// set, and the other of the two stays.
    pub fn set_tagged(&mut self, polygon: u32, tagged: Tagged, number: u32) {
        self.polygons[polygon as usize * POLYGON_WORDS + tagged.word()] = number;
    }

    /// #103: LAYR "empties the latest point and polygon lists". What has been
    /// found stays, and so do the names: TAGS and SURF are the file's.
    pub fn start_layer(&mut self) {
        self.latest_points = None;
        self.latest_polygons = None;
    }

    /// One record for each name: "the last SURF of a name stands, for the name
    /// anywhere in the file; a SURF for an unlisted name is checked and not
    /// kept."
    pub fn records(&self) -> Vec<Record> {
        let mut records = vec![UNDEFINED; self.names.len()];
        for surf in &self.surfs {
            if let Some(&number) = self.numbers.get(surf.name) {
                records[number as usize] = surf.record;
            }
        }
        records
    }
}
