//! The mesh.

use std::io::Read;
use std::path::Path;

use crate::name::{Name, Names};
use crate::polygon::{vertex_count, Polygon, Polygons};
use crate::read_error::ReadError;
use crate::reading::Reading;
use crate::refusal::Refusal;
use crate::refusal_kind::RefusalKind;
use crate::starts::Starts;
use crate::surface::Surface;
use crate::tables::{size, Tables, POINT_WORDS, POLYGON_WORDS, RECORD_WORDS};
use crate::FILE_LIMIT;

/// Points, polygons with their vertices, names, and a surface record for each name.
///
/// A `Mesh` holds only tables that are a mesh by the rules, so what its methods give needs no
/// check: counts agree, vertices, surfaces and parts name something, floats are finite. Two meshes
/// are equal when they are the same to the bit; 0.0 and -0.0 differ.
#[derive(Clone, Debug, Default, PartialEq, Eq, Hash)]
pub struct Mesh {
    tables: Tables,
    /// Where the vertices of each polygon and the bytes of each name begin.
    vertex_starts: Starts,
    byte_starts: Starts,
}

impl Mesh {
    /// Reads the mesh of an LWOB or LWO2 file. [`Reading::of`] also gives the file's counts.
    ///
    /// ```
    /// let mesh = lwo::Mesh::read(b"FORM\0\0\0\x04LWO2")?;
    /// assert_eq!(mesh, lwo::Mesh::default());
    /// # Ok::<(), lwo::Refusal>(())
    /// ```
    pub fn read(file: &[u8]) -> Result<Mesh, Refusal> {
        Reading::of(file).map(|reading| reading.mesh)
    }

    /// Opens the file of this name and reads its mesh.
    ///
    /// ```no_run
    /// let mesh = lwo::Mesh::open("panel.lwo")?;
    /// # Ok::<(), lwo::ReadError>(())
    /// ```
    pub fn open(path: impl AsRef<Path>) -> Result<Mesh, ReadError> {
        Reading::open(path).map(|reading| reading.mesh)
    }

    /// Reads the mesh of a file from a stream.
    ///
    /// ```
    /// let mesh = lwo::Mesh::from_reader(&b"FORM\0\0\0\x04LWO2"[..])?;
    /// assert_eq!(mesh, lwo::Mesh::default());
    /// # Ok::<(), lwo::ReadError>(())
    /// ```
    pub fn from_reader(reader: impl Read) -> Result<Mesh, ReadError> {
        Reading::from_reader(reader).map(|reading| reading.mesh)
    }

    /// Takes tables as a mesh, or refuses them (17) if they are none. [`MeshBuilder`] makes one
    /// from plain points, names and polygons.
    ///
    /// [`MeshBuilder`]: crate::MeshBuilder
    ///
    /// ```
    /// use lwo::{Mesh, Tables};
    ///
    /// let mut tables = Tables {
    ///     points: [0.0, 0.0, 0.0, 1.0, 0.0, 0.0, 0.0, 2.0, 0.0].map(f32::to_bits).to_vec(),
    ///     polygons: vec![1, 3, 0, 0], // a face of three vertices without a surface or a part
    ///     vertices: vec![0, 1, 2],
    ///     ..Tables::default()
    /// };
    /// assert!(Mesh::from_tables(tables.clone()).is_ok());
    ///
    /// tables.vertices[2] = 3; // there is no such point
    /// assert_eq!(Mesh::from_tables(tables).unwrap_err().number(), 17);
    /// ```
    pub fn from_tables(tables: Tables) -> Result<Mesh, Refusal> {
        // The writer judges the tables before it looks at the output, so an empty output is
        // enough to ask. A mesh whose file is too long (18) is a mesh.
        let written = tables.write(&mut []);
        match Refusal::answered(written.number, written.place) {
            Some(refusal) if refusal.kind == RefusalKind::NotAMesh => Err(refusal),
            _ => Ok(Mesh::holding(tables)),
        }
    }

    /// The mesh that these tables hold.
    pub(crate) fn holding(tables: Tables) -> Mesh {
        let (polygons, _) = tables.polygons.as_chunks();
        Mesh {
            vertex_starts: Starts::of(polygons.iter().map(vertex_count)),
            byte_starts: Starts::of(tables.names.iter().map(|&length| length as usize)),
            tables,
        }
    }

    /// The canonical LWO2 file of the mesh. It is refused (18) where it would be longer than
    /// [`FILE_LIMIT`](crate::FILE_LIMIT).
    ///
    /// ```
    /// assert_eq!(lwo::Mesh::default().to_lwo2()?, b"FORM\0\0\0\x04LWO2");
    /// # Ok::<(), lwo::Refusal>(())
    /// ```
    pub fn to_lwo2(&self) -> Result<Vec<u8>, Refusal> {
        // The longest that the file can be is not much longer than it is, so one call is enough.
        let mut file = vec![0; longest(&self.tables).min(FILE_LIMIT)];
        let written = self.tables.write(&mut file);
        match Refusal::answered(written.number, written.place) {
            Some(refusal) => Err(refusal),
            None => {
                file.truncate(size(written.length));
                file.shrink_to_fit();
                Ok(file)
            }
        }
    }

    /// The points in file order, as coordinates x, y and z.
    pub fn points(
        &self,
    ) -> impl ExactSizeIterator<Item = [f32; POINT_WORDS]> + DoubleEndedIterator + '_ {
        self.point_bits()
            .iter()
            .map(|bits| bits.map(f32::from_bits))
    }

    /// The points in file order, each coordinate as the bits of its `f32`.
    pub fn point_bits(&self) -> &[[u32; POINT_WORDS]] {
        let (points, _) = self.tables.points.as_chunks();
        points
    }

    /// The point of this number, counted from 0.
    pub fn point(&self, number: usize) -> Option<[f32; POINT_WORDS]> {
        let bits = self.point_bits().get(number)?;
        Some(bits.map(f32::from_bits))
    }

    /// The polygons in file order, each with its vertices.
    pub fn polygons(&self) -> Polygons<'_> {
        let (entries, _) = self.tables.polygons.as_chunks::<POLYGON_WORDS>();
        Polygons::new(entries, &self.tables.vertices)
    }

    /// The polygon of this number, counted from 0.
    pub fn polygon(&self, number: usize) -> Option<Polygon<'_>> {
        let (entries, _) = self.tables.polygons.as_chunks::<POLYGON_WORDS>();
        let vertices = self.vertex_starts.range(number)?;
        Some(Polygon::new(
            &entries[number],
            &self.tables.vertices[vertices],
        ))
    }

    /// The names in file order: those of surfaces and those of parts.
    pub fn names(&self) -> Names<'_> {
        Names::new(&self.tables.names, &self.tables.name_bytes)
    }

    /// The name of this index, counted from 0, as [`Polygon::name_index`] and
    /// [`Polygon::part_index`] have it.
    pub fn name(&self, index: usize) -> Option<Name<'_>> {
        let bytes = self.byte_starts.range(index)?;
        Some(Name::from(&self.tables.name_bytes[bytes]))
    }

    /// The surfaces, one for each name and in the same order; also for a name that only polygons'
    /// parts have.
    pub fn surfaces(&self) -> impl ExactSizeIterator<Item = Surface<'_>> {
        let (records, _) = self.tables.records.as_chunks::<RECORD_WORDS>();
        self.names()
            .zip(records)
            .map(|(name, record)| Surface::from_record(name, record))
    }

    /// The surface of this index, counted from 0, as [`Polygon::name_index`] has it.
    pub fn surface(&self, index: usize) -> Option<Surface<'_>> {
        let (records, _) = self.tables.records.as_chunks();
        Some(Surface::from_record(self.name(index)?, records.get(index)?))
    }

    /// The surface of a polygon of this mesh, if it has one.
    pub fn surface_of(&self, polygon: &Polygon) -> Option<Surface<'_>> {
        self.surface(polygon.name_index()?)
    }

    /// The name of the part that a polygon of this mesh belongs to, if it belongs to one.
    ///
    /// ```
    /// # let file = b"FORM\0\0\0\x46LWO2TAGS\0\0\0\x06head\0\0\
    /// #     PNTS\0\0\0\x0c\0\0\0\0\0\0\0\0\0\0\0\0\
    /// #     POLS\0\0\0\x08FACE\0\x01\0\0PTAG\0\0\0\x08PART\0\0\0\0";
    /// // `file` holds a polygon that a PTAG of type PART marks as "head".
    /// let mesh = lwo::Mesh::read(file)?;
    /// let polygon = mesh.polygon(0).expect("it has one");
    /// assert_eq!(mesh.part_of(&polygon), Some(lwo::Name::from("head")));
    /// assert_eq!(mesh.surface_of(&polygon), None);
    /// # Ok::<(), lwo::Refusal>(())
    /// ```
    pub fn part_of(&self, polygon: &Polygon) -> Option<Name<'_>> {
        self.name(polygon.part_index()?)
    }

    /// The names that are parts of polygons, each once and in the order of the names.
    ///
    /// ```
    /// use lwo::{Kind, MeshBuilder, Name, NO_SURFACE};
    ///
    /// let mut horse = MeshBuilder::new();
    /// let nose = horse.point([0.0; 3]);
    /// let [head, _, saddle] = ["head", "tail", "saddle"].map(|name| horse.name(name));
    /// for part in [saddle, head, saddle] {
    ///     horse.polygon_of_part(Kind::Face, NO_SURFACE, part, &[nose]);
    /// }
    /// let horse = horse.build()?;
    /// assert!(horse.parts().eq(["head", "saddle"].map(Name::from)));
    /// # Ok::<(), lwo::Refusal>(())
    /// ```
    pub fn parts(&self) -> impl Iterator<Item = Name<'_>> {
        let mut is_part = vec![false; self.tables.names.len()];
        for index in self.polygons().filter_map(|polygon| polygon.part_index()) {
            is_part[index] = true;
        }
        let names = self.names().zip(is_part);
        names.filter_map(|(name, is_part)| is_part.then_some(name))
    }

    /// The tables that hold the mesh.
    pub fn tables(&self) -> &Tables {
        &self.tables
    }

    /// The tables that hold the mesh, to be changed and taken as a mesh again.
    pub fn into_tables(self) -> Tables {
        self.tables
    }
}

/// A length that no canonical file of these tables is above: every polygon in chunks of its own,
/// with a surface and a part, every index in four bytes, every name defined, every length odd.
fn longest(tables: &Tables) -> usize {
    const FORM: usize = 12;
    const HEADER: usize = 8;
    const INDEX: usize = 4;
    const WORD: usize = 4;
    // POLS: header, type, count; PTAG, of SURF and of PART: header, type, polygon, tag.
    const POLYGON: usize = (HEADER + 4 + 2) + 2 * (HEADER + 4 + INDEX + 2);
    // The terminator and a pad, in TAGS; header, source, sub-chunks and the same, in SURF: less
    // than this.
    const NAME: usize = 128;
    FORM + 2 * (HEADER + 1)
        + tables.points.len() * WORD
        + tables.polygons.len() / POLYGON_WORDS * POLYGON
        + tables.vertices.len() * INDEX
        + tables.names.len() * NAME
        + tables.name_bytes.len() * 2
}
