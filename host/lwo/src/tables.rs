//! The tables of a mesh, as the library reads and writes them.

use crate::counts::Counts;
use crate::lent::{self, LwoAnswer, LwoWritten};
use crate::FILE_LIMIT;

/// Words of a point: x, y and z, each the bits of an `f32`.
pub const POINT_WORDS: usize = 3;

/// Words of a polygon: kind (1 face, 2 patch), vertex count, surface number (0 none, else 1 for
/// the first name), and the number of the part's name (likewise).
pub const POLYGON_WORDS: usize = 4;

/// Words of a surface record: defined (0 or 1), red, green, blue, diffuse, luminosity, specular,
/// reflection, transparency (eight levels, each the bits of an `f32`), and sides (1 or 3).
pub const RECORD_WORDS: usize = 10;

/// Six tables that may hold a mesh; [`Mesh::from_tables`](crate::Mesh::from_tables) tells
/// whether they do.
#[derive(Clone, Debug, Default, PartialEq, Eq, Hash)]
pub struct Tables {
    /// [`POINT_WORDS`] for each point.
    pub points: Vec<u32>,
    /// [`POLYGON_WORDS`] for each polygon.
    pub polygons: Vec<u32>,
    /// All polygons' point numbers, joined, counted from the file's first point.
    pub vertices: Vec<u32>,
    /// The length of each name in bytes.
    pub names: Vec<u32>,
    /// The bytes of all names, joined, without terminators.
    pub name_bytes: Vec<u8>,
    /// [`RECORD_WORDS`] for each name.
    pub records: Vec<u32>,
}

impl Tables {
    /// Tables as long as a file of so many bytes mostly needs: as many points and vertices as it
    /// can have, polygons of three vertices, and not very many names. Memory that is not used is
    /// given back by [`cut`](Tables::cut).
    pub(crate) fn expected(file_length: usize) -> Tables {
        const TRIANGLE_BYTES: usize = 8;
        const VERTEX_BYTES: usize = 2;
        const NAMES: usize = 1_000;
        // A longer file is refused whatever the tables are.
        let bytes = if file_length > FILE_LIMIT {
            0
        } else {
            file_length
        };
        let counts = Counts {
            points: (bytes / (POINT_WORDS * size_of::<f32>())) as u64,
            polygons: (bytes / TRIANGLE_BYTES) as u64,
            vertices: (bytes / VERTEX_BYTES) as u64,
            names: bytes.min(NAMES) as u64,
            name_bytes: bytes.min(20 * NAMES) as u64,
            ..Counts::default()
        };
        Tables::sized(&counts)
    }

    /// Tables of just the size that a file needs, with every word 0.
    pub(crate) fn sized(counts: &Counts) -> Tables {
        Tables {
            points: vec![0; size(counts.points) * POINT_WORDS],
            polygons: vec![0; size(counts.polygons) * POLYGON_WORDS],
            vertices: vec![0; size(counts.vertices)],
            names: vec![0; size(counts.names)],
            name_bytes: vec![0; size(counts.name_bytes)],
            records: vec![0; size(counts.names) * RECORD_WORDS],
        }
    }

    /// Cuts the tables to what a mesh of these counts has.
    pub(crate) fn cut(&mut self, counts: &Counts) {
        cut(&mut self.points, size(counts.points) * POINT_WORDS);
        cut(&mut self.polygons, size(counts.polygons) * POLYGON_WORDS);
        cut(&mut self.vertices, size(counts.vertices));
        cut(&mut self.names, size(counts.names));
        cut(&mut self.name_bytes, size(counts.name_bytes));
        cut(&mut self.records, size(counts.names) * RECORD_WORDS);
    }

    pub(crate) fn read(&mut self, file: &[u8]) -> LwoAnswer {
        lent::read(
            file,
            &mut self.points,
            &mut self.polygons,
            &mut self.vertices,
            &mut self.names,
            &mut self.name_bytes,
            &mut self.records,
        )
    }

    pub(crate) fn write(&self, out: &mut [u8]) -> LwoWritten {
        lent::write(
            &self.points,
            &self.polygons,
            &self.vertices,
            &self.names,
            &self.name_bytes,
            &self.records,
            out,
        )
    }
}

fn cut<T>(table: &mut Vec<T>, length: usize) {
    table.truncate(length);
    table.shrink_to_fit();
}

/// A count of the library as a size. An entry takes bytes of the file, so no count is above the
/// longest file's length.
pub(crate) fn size(count: u64) -> usize {
    usize::try_from(count).expect("a count is at most the file's length")
}
