//! The sample file at the end of source 000, byte for byte as in its dump.

use second::{listing, Answer};

use crate::help::{accepted, hex, mesh_of};

const DUMP: &str = include_str!("../sample-000.hex");

#[test]
fn its_answer() {
    let file = hex(DUMP);
    assert_eq!(file.len(), 518);
    let (answer, _) = accepted(&file);
    let expected = Answer {
        number: 0,
        place: 0,
        points: 5,
        polygons: 2,
        vertices: 7,
        names: 2,
        name_bytes: 14,
        skipped: 0,
        details: 0,
    };
    assert_eq!(answer, expected);
}

#[test]
fn its_mesh() {
    let mesh = mesh_of(&hex(DUMP));
    assert_eq!(mesh.points[1], [0x4020_0000, 0x3f80_0000, 0]);
    assert_eq!(mesh.points[4], [0xc000_0000, 0, 0]);
    assert_eq!(mesh.polygons[0].vertices, [3, 4, 0]);
    assert_eq!(mesh.polygons[0].surface, 1);
    assert_eq!(mesh.polygons[1].vertices, [0, 1, 2, 3]);
    assert_eq!(mesh.polygons[1].surface, 2);
    assert!(mesh.polygons.iter().all(|polygon| polygon.kind == 1));
    assert!(mesh.polygons.iter().all(|polygon| polygon.part == 0));
    assert_eq!(mesh.names, [b"Triangle".to_vec(), b"Square".to_vec()]);
}

/// Worked by hand: 240/255 = 16/17 = 0x3F70F0F1, 180/255 = 12/17 = 0x3F34B4B5,
/// 200/255 = 40/51 = 0x3F48C8C9, each to the nearest f32. The floating-point
/// forms win over 154/256, 205/256, 51/256 and 102/256.
#[test]
fn its_records() {
    let mesh = mesh_of(&hex(DUMP));
    let triangle = mesh.records[0];
    assert_eq!(triangle.defined, 1);
    assert_eq!(triangle.colour, [0x3f70_f0f1, 0x3f34_b4b5, 0]);
    assert_eq!(triangle.diffuse, 0x3f19_999a);
    assert_eq!(triangle.luminosity, 0);
    assert_eq!(triangle.specular, 0x3f4c_cccd);
    assert_eq!(triangle.reflection, 0x3e4c_cccd);
    assert_eq!(triangle.transparency, 0x3ecc_cccd);
    assert_eq!(triangle.sides, 3);

    let square = mesh.records[1];
    assert_eq!(square.defined, 1);
    assert_eq!(square.colour, [0x3f48_c8c9; 3]);
    assert_eq!(square.diffuse, 0x3f80_0000);
    assert_eq!(square.luminosity, 0);
    assert_eq!(square.specular, 0);
    assert_eq!(square.reflection, 0);
    assert_eq!(square.transparency, 0);
    assert_eq!(square.sides, 1);
}

#[test]
fn its_listing() {
    let lines = "\
accepted
points 5
polygons 2
vertices 7
names 2
name-bytes 14
skipped 0
details 0
polygon 0 kind 1 surface 1 part 0 vertices 3 4 0
polygon 1 kind 1 surface 2 part 0 vertices 0 1 2 3
";
    assert_eq!(listing(&hex(DUMP)), lines);
}
