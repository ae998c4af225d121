//! The lent tables.

use crate::found::{POINT_WORDS, POLYGON_WORDS};
use crate::surface::RECORD_WORDS;

/// The tables that a caller lends. Their lengths are the room, whatever they
/// hold. A point is 3 words, a polygon 4 (kind, vertex count, surface, part), a
/// name its length, a record 10 (defined, red, green, blue, diffuse, luminosity,
/// specular, reflection, transparency, sides), levels as f32 bits.
#[derive(Clone, Debug, Default, PartialEq, Eq)]
pub struct Tables {
    pub points: Vec<u32>,
    pub polygons: Vec<u32>,
    pub vertices: Vec<u32>,
    pub names: Vec<u32>,
    pub name_bytes: Vec<u8>,
    pub records: Vec<u32>,
}

impl Tables {
    /// Whole entries of each table: "Where an entry is several words, a table
    /// is as long as its whole entries."
    pub fn point_count(&self) -> usize {
        self.points.len() / POINT_WORDS
    }

    pub fn polygon_count(&self) -> usize {
        self.polygons.len() / POLYGON_WORDS
    }

    pub fn record_count(&self) -> usize {
        self.records.len() / RECORD_WORDS
    }

    /// Tables with room for so many entries, all words 0.
    pub fn with_room(
        points: usize,
        polygons: usize,
        vertices: usize,
        names: usize,
        name_bytes: usize,
        records: usize,
    ) -> Tables {
        Tables {
            points: vec![0; points * POINT_WORDS],
            polygons: vec![0; polygons * POLYGON_WORDS],
            vertices: vec![0; vertices],
            names: vec![0; names],
            name_bytes: vec![0; name_bytes],
            records: vec![0; records * RECORD_WORDS],
        }
    }
}
