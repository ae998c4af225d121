//! A mesh from plain data.

use crate::mesh::Mesh;
use crate::name::Name;
use crate::polygon::{self, Kind};
use crate::refusal::Refusal;
use crate::surface::Surface;
use crate::tables::{Tables, POINT_WORDS};

/// Makes a mesh of points, surfaces and polygons that are given one after another. Whether they are
/// a mesh is judged at the end, by [`build`](MeshBuilder::build).
///
/// ```
/// use lwo::{Kind, MeshBuilder, Surface};
///
/// let mut board = MeshBuilder::new();
/// let corners = [[0.0, 0.0, 0.0], [1.2, 0.0, 0.0], [1.2, 0.4, 0.0]].map(|at| board.point(at));
/// let mut oak = Surface::new("Oak");
/// oak.colour = [0.6, 0.4, 0.2];
/// let oak = board.surface(&oak);
/// board.polygon(Kind::Face, oak, &corners);
/// board.polygon(Kind::Face, lwo::NO_SURFACE, &[2, 1, 0]);
/// let lid = board.name("Lid");
/// board.polygon_of_part(Kind::Face, oak, lid, &corners);
/// let mesh = board.build()?;
/// assert_eq!(mesh.polygons().len(), 3);
/// assert!(mesh.parts().eq([lwo::Name::from("Lid")]));
/// # Ok::<(), lwo::Refusal>(())
/// ```
#[derive(Clone, Debug, Default)]
pub struct MeshBuilder {
    tables: Tables,
}

/// The surface number of a polygon without a surface.
pub const NO_SURFACE: u32 = 0;

/// The part number of a polygon that belongs to no part.
pub const NO_PART: u32 = 0;

impl MeshBuilder {
    /// Nothing yet.
    pub fn new() -> MeshBuilder {
        MeshBuilder::default()
    }

    /// Adds a point and gives its number, by which polygons name it.
    pub fn point(&mut self, coordinates: [f32; POINT_WORDS]) -> u32 {
        let number = self.tables.points.len() / POINT_WORDS;
        self.tables.points.extend(coordinates.map(f32::to_bits));
        number_of(number)
    }

    /// Adds a name and its surface, and gives the name's number, by which polygons have it as their
    /// surface or their part.
    pub fn surface(&mut self, surface: &Surface) -> u32 {
        let name = surface.name.as_bytes();
        self.tables.names.push(number_of(name.len()));
        self.tables.name_bytes.extend(name);
        self.tables.records.extend(surface.record());
        number_of(self.tables.names.len())
    }

    /// Adds a name without values of its own, as that of a part mostly is, and gives its number.
    pub fn name<'a>(&mut self, name: impl Into<Name<'a>>) -> u32 {
        self.surface(&Surface::undefined(name))
    }

    /// Adds a polygon of a surface, or of [`NO_SURFACE`], with these points. It belongs to no part.
    pub fn polygon(&mut self, kind: Kind, surface: u32, vertices: &[u32]) {
        self.polygon_of_part(kind, surface, NO_PART, vertices);
    }

    /// Adds a polygon of a surface, or of [`NO_SURFACE`], with these points. It belongs to a part,
    /// or to [`NO_PART`].
    pub fn polygon_of_part(&mut self, kind: Kind, surface: u32, part: u32, vertices: &[u32]) {
        let entry = polygon::entry(kind, number_of(vertices.len()), surface, part);
        self.tables.polygons.extend(entry);
        self.tables.vertices.extend(vertices);
    }

    /// The mesh, or a refusal (17) where what was given is none: a vertex, surface or part that
    /// names nothing, a name that is there twice, has a zero byte or is too long, a number that is
    /// not finite, or a polygon of no vertices or more than 1,023.
    pub fn build(self) -> Result<Mesh, Refusal> {
        Mesh::from_tables(self.tables)
    }
}

/// A number as tables have it. What has no such number is far past the limits, and so is the
/// largest number, which the library then refuses.
fn number_of(count: usize) -> u32 {
    u32::try_from(count).unwrap_or(u32::MAX)
}
