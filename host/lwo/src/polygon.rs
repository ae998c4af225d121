//! Polygons: faces and patches.

use std::iter::FusedIterator;
use std::slice;

use crate::tables::POLYGON_WORDS;

/// What a polygon is.
#[derive(Clone, Copy, Debug, PartialEq, Eq, Hash)]
pub enum Kind {
    /// A face, number 1.
    Face,
    /// A patch, number 2.
    Patch,
}

impl Kind {
    /// The kind's number in a table: 1 face, 2 patch.
    pub fn number(self) -> u32 {
        match self {
            Kind::Face => 1,
            Kind::Patch => 2,
        }
    }

    fn from_number(number: u32) -> Kind {
        match number {
            1 => Kind::Face,
            2 => Kind::Patch,
            _ => unreachable!("a mesh has no polygon of kind {number}"),
        }
    }
}

/// A polygon of a mesh. It may be given more than this, so it cannot be taken apart or made by its
/// fields alone.
#[derive(Clone, Copy, Debug, PartialEq, Eq, Hash)]
#[non_exhaustive]
pub struct Polygon<'a> {
    /// Face or patch.
    pub kind: Kind,
    /// The surface number: 0 none, else 1 for the mesh's first name.
    pub surface: u32,
    /// The part of the figure that the polygon belongs to, as "head" or "saddle", by the number of
    /// its name: 0 none, else 1 for the mesh's first name. No polygon of an LWOB file has one.
    pub part: u32,
    /// The polygon's points, by their numbers from 0 in the mesh; from 1 to 1,023 of them.
    pub vertices: &'a [u32],
}

impl<'a> Polygon<'a> {
    /// The polygon of an entry of the table.
    pub(crate) fn new(entry: &[u32; POLYGON_WORDS], vertices: &'a [u32]) -> Polygon<'a> {
        let &[kind, _, surface, part] = entry;
        Polygon {
            kind: Kind::from_number(kind),
            surface,
            part,
            vertices,
        }
    }

    /// Which of the mesh's names and surfaces is the polygon's, counted from 0.
    pub fn name_index(&self) -> Option<usize> {
        index_of(self.surface)
    }

    /// Which of the mesh's names is that of the polygon's part, counted from 0.
    pub fn part_index(&self) -> Option<usize> {
        index_of(self.part)
    }
}

/// The index of a name by its number, which is 0 for none.
fn index_of(number: u32) -> Option<usize> {
    number.checked_sub(1).map(|index| index as usize)
}

/// How many vertices the polygon of an entry has.
pub(crate) fn vertex_count(entry: &[u32; POLYGON_WORDS]) -> usize {
    let &[_, count, _, _] = entry;
    count as usize
}

/// The entry of a polygon.
pub(crate) fn entry(
    kind: Kind,
    vertex_count: u32,
    surface: u32,
    part: u32,
) -> [u32; POLYGON_WORDS] {
    [kind.number(), vertex_count, surface, part]
}

/// The polygons of a mesh in file order: what [`Mesh::polygons`](crate::Mesh::polygons) gives.
#[derive(Clone, Debug)]
pub struct Polygons<'a> {
    entries: slice::Iter<'a, [u32; POLYGON_WORDS]>,
    /// The vertices of the polygons still to come.
    vertices: &'a [u32],
}

impl<'a> Polygons<'a> {
    pub(crate) fn new(entries: &'a [[u32; POLYGON_WORDS]], vertices: &'a [u32]) -> Polygons<'a> {
        Polygons {
            entries: entries.iter(),
            vertices,
        }
    }
}

impl<'a> Iterator for Polygons<'a> {
    type Item = Polygon<'a>;

    fn next(&mut self) -> Option<Polygon<'a>> {
        let entry = self.entries.next()?;
        let (vertices, rest) = self.vertices.split_at(vertex_count(entry));
        self.vertices = rest;
        Some(Polygon::new(entry, vertices))
    }

    fn size_hint(&self) -> (usize, Option<usize>) {
        self.entries.size_hint()
    }
}

impl ExactSizeIterator for Polygons<'_> {}

impl FusedIterator for Polygons<'_> {}
