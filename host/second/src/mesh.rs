//! The mesh as a structure of its own, for those who want more than tables.

use crate::found::{Found, POINT_WORDS, POLYGON_WORDS};
use crate::surface::{Record, RECORD_WORDS};
use crate::tables::Tables;

/// "What the mesh is" of document 01.
#[derive(Clone, Debug, Default, PartialEq, Eq)]
pub struct Mesh {
    /// "three f32 bit patterns each, in file order."
    pub points: Vec<[u32; 3]>,
    pub polygons: Vec<Polygon>,
    /// The names' bytes, without terminators.
    pub names: Vec<Vec<u8>>,
    /// "One surface record for each name".
    pub records: Vec<Record>,
}

/// One polygon with its own vertices, "counted from the file's first point".
#[derive(Clone, Debug, PartialEq, Eq)]
pub struct Polygon {
    /// "kind (1 face, 2 patch)".
    pub kind: u32,
    /// "surface number (0 none, else 1 for the first name)".
    pub surface: u32,
    /// #111: "part name, 0 for none, else counted from 1 in TAGS".
    pub part: u32,
    pub vertices: Vec<u32>,
}

impl Mesh {
    /// The mesh that the tables hold as a whole. The counts must agree, as
    /// they do in what a reader gives.
    pub fn from_tables(tables: &Tables) -> Mesh {
        Mesh {
            points: points(&tables.points),
            polygons: polygons(&tables.polygons, &tables.vertices),
            names: names(&tables.names, &tables.name_bytes),
            records: records(&tables.records),
        }
    }

    pub(crate) fn from_found(found: &Found) -> Mesh {
        Mesh {
            points: points(&found.points),
            polygons: polygons(&found.polygons, &found.vertices),
            names: found.names.iter().map(|name| name.to_vec()).collect(),
            records: found.records(),
        }
    }

    /// The mesh as tables of exactly its sizes.
    pub fn tables(&self) -> Tables {
        let mut tables = Tables::default();
        for point in &self.points {
            tables.points.extend_from_slice(point);
        }
        for polygon in &self.polygons {
            let count = polygon.vertices.len() as u32;
            let entry = [polygon.kind, count, polygon.surface, polygon.part];
            tables.polygons.extend_from_slice(&entry);
            tables.vertices.extend_from_slice(&polygon.vertices);
        }
        for name in &self.names {
            tables.names.push(name.len() as u32);
            tables.name_bytes.extend_from_slice(name);
        }
        for record in &self.records {
            tables.records.extend_from_slice(&record.words());
        }
        tables
    }
}

fn points(words: &[u32]) -> Vec<[u32; 3]> {
    words
        .chunks_exact(POINT_WORDS)
        .map(|point| [point[0], point[1], point[2]])
        .collect()
}

fn polygons(words: &[u32], mut vertices: &[u32]) -> Vec<Polygon> {
    let mut polygons = Vec::with_capacity(words.len() / POLYGON_WORDS);
    for entry in words.chunks_exact(POLYGON_WORDS) {
        let (own, rest) = vertices.split_at(entry[1] as usize);
        vertices = rest;
        polygons.push(Polygon {
            kind: entry[0],
            surface: entry[2],
            part: entry[3],
            vertices: own.to_vec(),
        });
    }
    polygons
}

fn names(lengths: &[u32], mut bytes: &[u8]) -> Vec<Vec<u8>> {
    let mut names = Vec::with_capacity(lengths.len());
    for &length in lengths {
        let (own, rest) = bytes.split_at(length as usize);
        bytes = rest;
        names.push(own.to_vec());
    }
    names
}

fn records(words: &[u32]) -> Vec<Record> {
    let (entries, _) = words.as_chunks::<RECORD_WORDS>();
    entries.iter().map(Record::from_words).collect()
}
