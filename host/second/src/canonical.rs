//! "Canonical LWO2" of document 01.
//!
//! The length is worked out first, as a sum, so that the writer can answer 18
//! and 16 before it touches the output.

use crate::found::{Tagged, FACE, POLYGON_WORDS};
use crate::limits::LONG_INDEX;
use crate::mesh::Mesh;
use crate::surface::{Record, RECORD_WORDS};
use crate::tables::Tables;

/// The canonical LWO2 file of a mesh.
pub fn canonical(mesh: &Mesh) -> Vec<u8> {
    let tables = mesh.tables();
    let mut out = vec![0; canonical_length(&tables) as usize];
    put_canonical(&tables, &mut out);
    out
}

/// How long the canonical file is. The tables must be a mesh.
pub fn canonical_length(tables: &Tables) -> u64 {
    let mut length = 12;
    if !tables.names.is_empty() {
        length += 8 + tags_length(tables);
    }
    if !tables.points.is_empty() {
        length += 8 + points_length(tables);
    }
    for run in Runs::over(tables) {
        length += 8 + run.polygons_length();
        for tagged in run.taggings() {
            length += 8 + run.tagging_length(tagged);
        }
    }
    for (name, record) in named_records(tables) {
        if record.defined == 1 {
            length += 8 + surface_length(name);
        }
    }
    length
}

/// Puts the canonical file into `out`, which must be exactly as long as it.
pub fn put_canonical(tables: &Tables, out: &mut [u8]) {
    let form_length = out.len() as u64 - 8;
    let mut pen = Pen { out, at: 0 };
    pen.header(b"FORM", form_length);
    pen.put(b"LWO2");
    put_tags(&mut pen, tables);
    put_points(&mut pen, tables);
    for run in Runs::over(tables) {
        put_polygons(&mut pen, &run);
        for tagged in run.taggings() {
            put_tagging(&mut pen, &run, tagged);
        }
    }
    put_surfaces(&mut pen, tables);
    debug_assert_eq!(pen.at, pen.out.len());
}

/// "Empty chunks are left out."
fn put_tags(pen: &mut Pen, tables: &Tables) {
    if tables.names.is_empty() {
        return;
    }
    pen.header(b"TAGS", tags_length(tables));
    for name in names(tables) {
        pen.string(name);
    }
}

fn put_points(pen: &mut Pen, tables: &Tables) {
    if tables.points.is_empty() {
        return;
    }
    pen.header(b"PNTS", points_length(tables));
    for &bits in &tables.points {
        pen.u4(bits);
    }
}

/// "for each longest run of one kind a POLS". "Shortest VX; the six high count
/// bits are 0."
fn put_polygons(pen: &mut Pen, run: &Run) {
    pen.header(b"POLS", run.polygons_length());
    pen.put(if run.kind == FACE { b"FACE" } else { b"PTCH" });
    let mut vertices = run.vertices;
    for &[_, count, ..] in run.polygons {
        let (own, rest) = vertices.split_at(count as usize);
        vertices = rest;
        pen.u2(count as u16);
        for &vertex in own {
            pen.vx(vertex);
        }
    }
}

/// "and a PTAG SURF for its tagged polygons, ascending"; #111: "a PTAG PART for
/// each run with a part name". The polygon number counts from the latest POLS,
/// which is the run's own.
fn put_tagging(pen: &mut Pen, run: &Run, tagged: Tagged) {
    pen.header(b"PTAG", run.tagging_length(tagged));
    pen.put(tagged.kind());
    for (polygon, number) in run.tagged(tagged) {
        pen.vx(polygon);
        pen.u2((number - 1) as u16);
    }
}

/// "then a SURF for each defined name in order: empty source, COLR, DIFF,
/// LUMI, SPEC, REFL, TRAN, SIDE, each envelope 0."
fn put_surfaces(pen: &mut Pen, tables: &Tables) {
    for (name, record) in named_records(tables) {
        if record.defined == 1 {
            put_surface(pen, name, &record);
        }
    }
}

fn put_surface(pen: &mut Pen, name: &[u8], record: &Record) {
    pen.header(b"SURF", surface_length(name));
    pen.string(name);
    pen.string(b"");
    pen.sub_header(b"COLR", 14);
    for bits in record.colour {
        pen.u4(bits);
    }
    pen.vx(0);
    pen.level(b"DIFF", record.diffuse);
    pen.level(b"LUMI", record.luminosity);
    pen.level(b"SPEC", record.specular);
    pen.level(b"REFL", record.reflection);
    pen.level(b"TRAN", record.transparency);
    pen.sub_header(b"SIDE", 2);
    pen.u2(record.sides as u16);
}

fn tags_length(tables: &Tables) -> u64 {
    tables
        .names
        .iter()
        .map(|&n| string_length(n as usize))
        .sum()
}

fn points_length(tables: &Tables) -> u64 {
    tables.points.len() as u64 * 4
}

/// The body of a SURF: the name, the empty source, COLR (6 + 14), five levels
/// (6 + 6 each) and SIDE (6 + 2).
fn surface_length(name: &[u8]) -> u64 {
    string_length(name.len()) + string_length(0) + 20 + 5 * 12 + 8
}

/// A string with its terminator, and its pad where the two are odd.
fn string_length(name: usize) -> u64 {
    (name as u64 + 1).next_multiple_of(2)
}

/// "If the index value is less than 65,280 (0xFF00), then the index is written
/// as an unsigned two-byte integer" (source 002), else in four.
fn vx_length(index: u32) -> u64 {
    if index < LONG_INDEX {
        2
    } else {
        4
    }
}

fn names(tables: &Tables) -> impl Iterator<Item = &[u8]> {
    let mut rest = &tables.name_bytes[..];
    tables.names.iter().map(move |&length| {
        let (name, after) = rest.split_at(length as usize);
        rest = after;
        name
    })
}

fn named_records(tables: &Tables) -> impl Iterator<Item = (&[u8], Record)> {
    let (entries, _) = tables.records.as_chunks::<RECORD_WORDS>();
    names(tables).zip(entries.iter().map(Record::from_words))
}

/// A longest run of polygons of one kind, with its own vertices.
struct Run<'a> {
    kind: u32,
    polygons: &'a [[u32; POLYGON_WORDS]],
    vertices: &'a [u32],
}

impl Run<'_> {
    fn polygons_length(&self) -> u64 {
        let counts = 2 * self.polygons.len() as u64;
        let vertices: u64 = self.vertices.iter().map(|&v| vx_length(v)).sum();
        4 + counts + vertices
    }

    /// The run's polygons that have a surface, or a part: their numbers in the
    /// run, and the numbers of their names.
    fn tagged(&self, tagged: Tagged) -> impl Iterator<Item = (u32, u32)> + '_ {
        let numbered = (0u32..).zip(self.polygons);
        numbered
            .map(move |(polygon, entry)| (polygon, tagged.number(entry)))
            .filter(|&(_, number)| number != 0)
    }

    /// What the run has a PTAG for: the one of type PART comes "after its PTAG
    /// SURF if any", and "Empty chunks are left out."
    fn taggings(&self) -> impl Iterator<Item = Tagged> + '_ {
        let all = Tagged::ALL.into_iter();
        all.filter(|&tagged| self.tagged(tagged).next().is_some())
    }

    fn tagging_length(&self, tagged: Tagged) -> u64 {
        let pairs = self.tagged(tagged).map(|(n, _)| vx_length(n) + 2);
        4 + pairs.sum::<u64>()
    }
}

/// The runs of a mesh, first to last.
struct Runs<'a> {
    polygons: &'a [[u32; POLYGON_WORDS]],
    vertices: &'a [u32],
}

impl<'a> Runs<'a> {
    fn over(tables: &'a Tables) -> Runs<'a> {
        let (polygons, _) = tables.polygons.as_chunks::<POLYGON_WORDS>();
        Runs {
            polygons,
            vertices: &tables.vertices,
        }
    }
}

impl<'a> Iterator for Runs<'a> {
    type Item = Run<'a>;

    fn next(&mut self) -> Option<Run<'a>> {
        let &[kind, ..] = self.polygons.first()?;
        let same = self.polygons.iter().take_while(|entry| entry[0] == kind);
        let (polygons, later) = self.polygons.split_at(same.count());
        let corners = polygons.iter().map(|entry| entry[1] as usize).sum();
        let (vertices, later_vertices) = self.vertices.split_at(corners);
        self.polygons = later;
        self.vertices = later_vertices;
        Some(Run {
            kind,
            polygons,
            vertices,
        })
    }
}

/// Puts bytes one after another. "All integers and floats have the high byte
/// first."
struct Pen<'a> {
    out: &'a mut [u8],
    at: usize,
}

impl Pen<'_> {
    fn put(&mut self, bytes: &[u8]) {
        self.out[self.at..self.at + bytes.len()].copy_from_slice(bytes);
        self.at += bytes.len();
    }

    fn u2(&mut self, number: u16) {
        self.put(&number.to_be_bytes());
    }

    fn u4(&mut self, number: u32) {
        self.put(&number.to_be_bytes());
    }

    fn vx(&mut self, index: u32) {
        if index < LONG_INDEX {
            self.u2(index as u16);
        } else {
            self.u4(0xff00_0000 | index);
        }
    }

    fn string(&mut self, name: &[u8]) {
        self.put(name);
        self.put(if name.len().is_multiple_of(2) {
            &[0, 0]
        } else {
            &[0]
        });
    }

    /// Every body here is even, so no chunk has a pad byte.
    fn header(&mut self, tag: &[u8; 4], length: u64) {
        self.put(tag);
        self.u4(length as u32);
    }

    fn sub_header(&mut self, tag: &[u8; 4], length: u16) {
        self.put(tag);
        self.u2(length);
    }

    fn level(&mut self, tag: &[u8; 4], bits: u32) {
        self.sub_header(tag, 6);
        self.u4(bits);
        self.vx(0);
    }
}
