//! The files that are read and the meshes that are written.

use cases::assemble::{chunk, form, join, string, u2, Kind};
use lwo::{POLYGON_WORDS, RECORD_WORDS};
use second::Tables;

/// A file, and the mesh that it holds.
pub struct Work {
    pub name: String,
    pub file: Vec<u8>,
    pub mesh: Tables,
}

impl Work {
    /// A file whose mesh is what the second program reads from it.
    fn of_file(name: String, file: Vec<u8>) -> Work {
        let needs = second::read(&file, &mut Tables::default());
        let mut mesh = Tables::with_room(
            needs.points as usize,
            needs.polygons as usize,
            needs.vertices as usize,
            needs.names as usize,
            needs.name_bytes as usize,
            needs.names as usize,
        );
        let answer = second::read(&file, &mut mesh);
        assert_eq!(answer.number, 0, "{name} is a valid file");
        Work { name, file, mesh }
    }
}

/// A square of four-cornered faces as a canonical LWO2 file of about so many
/// bytes, not more. From 65,281 points on, indices have both forms.
pub fn lwo2_grid(bytes: usize) -> Work {
    let mut side = 2;
    while canonical_bytes(side + 1) <= bytes {
        side += 1;
    }
    let mesh = grid(side);
    let mut file = vec![0; canonical_bytes(side)];
    let written = second::write(&mesh, &mut file);
    assert_eq!((written.number, written.length), (0, file.len() as u64));
    let name = format!("LWO2 grid, {} points", side * side);
    Work { name, file, mesh }
}

/// The length of the canonical file of a grid with so many points on a side:
/// FORM, TAGS, the points, the faces, their tags, and one SURF.
fn canonical_bytes(side: usize) -> usize {
    let index = |number: usize| if number < 0xff00 { 2 } else { 4 };
    let faces = (side - 1) * (side - 1);
    let corners: usize = corners(side).map(|vertex| index(vertex as usize)).sum();
    let tags: usize = (0..faces).map(|face| index(face) + 2).sum();
    let surf = 8 + 4 + 2 + (6 + 14) + 5 * (6 + 6) + (6 + 2);
    12 + 12 + (8 + 12 * side * side) + (12 + 2 * faces + corners) + (12 + tags) + surf
}

/// The vertices of all faces of a grid.
fn corners(side: usize) -> impl Iterator<Item = u32> {
    (0..side - 1).flat_map(move |row| {
        (0..side - 1).flat_map(move |column| {
            let first = (row * side + column) as u32;
            let above = first + side as u32;
            [first, first + 1, above + 1, above]
        })
    })
}

/// A grid with so many points on a side, all faces of one named surface.
fn grid(side: usize) -> Tables {
    let points = (0..side * side).flat_map(|number| {
        let (row, column) = (number / side, number % side);
        let height = ((row * 7 + column * 13) % 32) as f32 / 1_000.0;
        [column as f32 / 100.0, row as f32 / 100.0, height].map(f32::to_bits)
    });
    let faces = (side - 1) * (side - 1);
    let level = 0.5f32.to_bits();
    // A face of four vertices with the first surface and no part, and a surface that is defined.
    let polygon: [u32; POLYGON_WORDS] = [1, 4, 1, 0];
    let record: [u32; RECORD_WORDS] = [1, level, level, level, level, 0, 0, 0, 0, 1];
    Tables {
        points: points.collect(),
        polygons: polygon.repeat(faces),
        vertices: corners(side).collect(),
        names: vec![3],
        name_bytes: b"Oak".to_vec(),
        records: record.to_vec(),
    }
}

/// The same as an LWOB file: 12 bytes a point and 12 a face.
pub fn lwob_grid(side: usize) -> Work {
    let mesh = grid(side);
    let points: Vec<Vec<u8>> = mesh
        .points
        .iter()
        .map(|w| w.to_be_bytes().to_vec())
        .collect();
    let corners = mesh.vertices.chunks_exact(4);
    let faces: Vec<Vec<u8>> = corners
        .map(|face| {
            let vertices: Vec<Vec<u8>> = face.iter().map(|&vertex| u2(vertex as u16)).collect();
            join(&[u2(4), join(&vertices), u2(1)])
        })
        .collect();
    let chunks = [
        chunk(b"PNTS", &join(&points)),
        chunk(b"SRFS", &string(b"Oak")),
        chunk(b"POLS", &join(&faces)),
    ];
    let name = format!("LWOB grid, {} points", side * side);
    Work::of_file(name, form(Kind::Lwob, &join(&chunks)))
}

/// 2,000 names of so many bytes in TAGS, no two with the same first two bytes.
pub fn name_list(length: usize) -> Work {
    let names: Vec<Vec<u8>> = (0..2_000u32)
        .map(|number| {
            let mut name = vec![b'n'; length];
            name[0] = 1 + (number / 250) as u8;
            name[1] = 1 + (number % 250) as u8;
            string(&name)
        })
        .collect();
    let file = form(Kind::Lwo2, &chunk(b"TAGS", &join(&names)));
    Work::of_file(format!("2,000 names of {length} bytes"), file)
}

#[cfg(test)]
mod tests {
    use super::*;
    use second::is_mesh;

    #[test]
    fn grids_are_as_long_as_asked() {
        let work = lwo2_grid(1_000_000);
        assert!(work.file.len() <= 1_000_000 && work.file.len() > 990_000);
        assert!(is_mesh(&work.mesh));
    }

    /// "over 65,280 points": the long form of an index is there.
    #[test]
    fn the_large_grid_has_long_indices() {
        let work = lwo2_grid(10_000_000);
        assert!(work.mesh.vertices.iter().any(|&vertex| vertex >= 0xff00));
    }

    #[test]
    fn an_lwob_grid_holds_the_same_mesh() {
        let work = lwob_grid(20);
        let mut mesh = grid(20);
        mesh.records = work.mesh.records.clone();
        assert_eq!(work.mesh, mesh);
        assert_eq!(work.mesh.records[0], 0);
    }

    #[test]
    fn names_differ_in_their_first_two_bytes() {
        for length in [2, 250] {
            let work = name_list(length);
            assert_eq!(work.mesh.names, vec![length as u32; 2_000]);
        }
    }
}
