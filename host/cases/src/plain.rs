//! A mesh as plain tables, and the records that a generated file must give.

/// A mesh as the tables of document 01: a point is 3 words, a polygon 4 (kind,
/// vertex count, surface, and by #111 part), a name its length, a record 10.
#[derive(Clone, Debug, Default, PartialEq, Eq)]
pub struct PlainMesh {
    pub points: Vec<u32>,
    pub polygons: Vec<u32>,
    pub vertices: Vec<u32>,
    pub names: Vec<u32>,
    pub name_bytes: Vec<u8>,
    pub records: Vec<u32>,
}

/// The words of a polygon's entry.
pub const POLYGON_WORDS: usize = 4;

/// A record as it lies in the table: defined, red, green, blue, diffuse,
/// luminosity, specular, reflection, transparency, sides.
pub type PlainRecord = [u32; 10];

const ONE: u32 = 0x3f80_0000;

/// Each level of "the missing colour" (#105), of either kind of file.
pub const MISSING_COLOUR: u32 = ONE;

/// "A name with no SURF has defined 0 and LWO2's missing values."
pub const UNDEFINED: PlainRecord = [
    0,
    MISSING_COLOUR,
    MISSING_COLOUR,
    MISSING_COLOUR,
    ONE,
    0,
    0,
    0,
    0,
    1,
];

impl PlainMesh {
    pub fn point_count(&self) -> u32 {
        (self.points.len() / 3) as u32
    }

    pub fn polygon_count(&self) -> u32 {
        (self.polygons.len() / POLYGON_WORDS) as u32
    }

    /// A polygon of no part.
    pub fn add_polygon(&mut self, kind: u32, vertices: &[u32], surface: u32) {
        self.add_polygon_of_part(kind, vertices, surface, 0);
    }

    pub fn add_polygon_of_part(&mut self, kind: u32, vertices: &[u32], surface: u32, part: u32) {
        let count = vertices.len() as u32;
        let entry: [u32; POLYGON_WORDS] = [kind, count, surface, part];
        self.polygons.extend_from_slice(&entry);
        self.vertices.extend_from_slice(vertices);
    }

    pub fn set_surface(&mut self, polygon: u32, surface: u32) {
        self.polygons[polygon as usize * POLYGON_WORDS + 2] = surface;
    }

    pub fn set_part(&mut self, polygon: u32, part: u32) {
        self.polygons[polygon as usize * POLYGON_WORDS + 3] = part;
    }

    pub fn add_name(&mut self, name: &[u8], record: &PlainRecord) {
        self.names.push(name.len() as u32);
        self.name_bytes.extend_from_slice(name);
        self.records.extend_from_slice(record);
    }
}
