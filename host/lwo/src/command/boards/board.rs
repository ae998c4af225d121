//! What of a mesh is cut from one board.

use lwo::{Kind, Mesh, Polygon, POINT_WORDS};

/// Millimetres of a metre, in which a file's coordinates are.
const MILLIMETRES: f64 = 1_000.0;

/// The polygons of one surface: how many, and how far they reach.
#[derive(Clone, Copy, Debug, Default, PartialEq)]
pub struct Board {
    pub faces: u64,
    pub patches: u64,
    pub vertices: u64,
    /// None where there are no polygons, or those of several files.
    pub extent: Option<Extent>,
}

/// The lowest and highest x, y and z, in metres.
#[derive(Clone, Copy, Debug, PartialEq)]
pub struct Extent {
    lowest: [f32; POINT_WORDS],
    highest: [f32; POINT_WORDS],
}

impl Board {
    /// Adds a polygon of a mesh.
    pub fn add(&mut self, mesh: &Mesh, polygon: &Polygon) {
        match polygon.kind {
            Kind::Face => self.faces += 1,
            Kind::Patch => self.patches += 1,
        }
        self.vertices += polygon.vertices.len() as u64;
        let points = polygon.vertices.iter();
        for point in points.filter_map(|&vertex| mesh.point(vertex as usize)) {
            self.reach(point);
        }
    }

    /// Adds the counts of this board in another file. Panels of several files lie in no common
    /// place, so they have no extent together.
    pub fn add_counts(&mut self, other: &Board) {
        self.faces += other.faces;
        self.patches += other.patches;
        self.vertices += other.vertices;
    }

    pub fn is_used(&self) -> bool {
        self.faces + self.patches > 0
    }

    fn reach(&mut self, point: [f32; POINT_WORDS]) {
        let extent = self.extent.get_or_insert(Extent {
            lowest: point,
            highest: point,
        });
        for (axis, at) in point.into_iter().enumerate() {
            extent.lowest[axis] = extent.lowest[axis].min(at);
            extent.highest[axis] = extent.highest[axis].max(at);
        }
    }
}

impl Extent {
    pub fn lowest(&self) -> [f64; POINT_WORDS] {
        self.lowest.map(|metres| f64::from(metres) * MILLIMETRES)
    }

    pub fn highest(&self) -> [f64; POINT_WORDS] {
        self.highest.map(|metres| f64::from(metres) * MILLIMETRES)
    }

    /// From the lowest to the highest, in millimetres.
    pub fn size(&self) -> [f64; POINT_WORDS] {
        let (lowest, highest) = (self.lowest(), self.highest());
        std::array::from_fn(|axis| highest[axis] - lowest[axis])
    }
}

/// Millimetres to the micrometre.
pub fn millimetres(length: f64) -> String {
    match format!("{length:.3}").as_str() {
        "-0.000" => String::from("0.000"),
        text => text.to_owned(),
    }
}

#[cfg(test)]
mod tests {
    use super::*;
    use lwo::{MeshBuilder, NO_SURFACE};

    #[test]
    fn a_board_reaches_as_far_as_its_polygons() {
        let mut builder = MeshBuilder::new();
        for point in [
            [0.5, 0.0, -0.25],
            [0.0, 0.0, 0.0],
            [1.0, 2.0, 0.25],
            [9.0; 3],
        ] {
            builder.point(point);
        }
        builder.polygon(Kind::Face, NO_SURFACE, &[0, 1]);
        builder.polygon(Kind::Patch, NO_SURFACE, &[2, 1, 0]);
        let mesh = builder.build().expect("a mesh");
        let mut board = Board::default();
        assert!(!board.is_used() && board.extent.is_none());
        mesh.polygons()
            .for_each(|polygon| board.add(&mesh, &polygon));
        assert_eq!((board.faces, board.patches, board.vertices), (1, 1, 5));
        let extent = board.extent.expect("an extent");
        assert_eq!(extent.lowest(), [0.0, 0.0, -250.0]);
        assert_eq!(extent.highest(), [1000.0, 2000.0, 250.0]);
        assert_eq!(extent.size(), [1000.0, 2000.0, 500.0]);

        let mut twice = Board::default();
        twice.add_counts(&board);
        twice.add_counts(&board);
        assert_eq!((twice.faces, twice.patches, twice.vertices), (2, 2, 10));
        assert_eq!(twice.extent, None);
    }

    #[test]
    fn lengths_are_told_to_the_micrometre() {
        assert_eq!(millimetres(f64::from(0.1f32) * MILLIMETRES), "100.000");
        assert_eq!(millimetres(-0.0), "0.000");
        assert_eq!(millimetres(-0.0001), "0.000");
        assert_eq!(millimetres(-1.5), "-1.500");
    }
}
