//! The writer: round trips on random meshes, 17, 18 and 16 in that order.

use cases::meshes::{
    at_file_limit, damaged, long_indices, many_names, mesh, parts_at_file_limit, rich_mesh,
};
use cases::plain::{PlainMesh, UNDEFINED};
use cases::random::Random;
use second::{canonical, is_mesh, write, Mesh, Tables, Written};

use crate::help::{accepted, hex};
use crate::valid::tables_of;

const MESHES: u64 = 3_000;

fn refused(number: u64) -> Written {
    Written {
        number,
        place: 0,
        length: 0,
    }
}

/// The file that is written with exactly the room it needs.
fn written(tables: &Tables) -> Vec<u8> {
    let needed = write(tables, &mut []);
    assert_eq!((needed.number, needed.place), (16, 0));
    let mut out = vec![0xa5; needed.length as usize];
    let done = write(tables, &mut out);
    assert_eq!((done.number, done.length), (0, needed.length));
    out
}

/// read(write(m)) = m in every table, to the bit.
#[test]
fn a_mesh_reads_back_the_same() {
    for seed in 0..MESHES {
        let tables = tables_of(&mesh(&mut Random::new(seed)));
        assert!(is_mesh(&tables), "seed {seed}");
        let file = written(&tables);
        let (answer, again) = accepted(&file);
        assert_eq!(again, tables, "seed {seed}");
        assert_eq!((answer.skipped, answer.details), (0, 0), "seed {seed}");
        let structured = Mesh::from_tables(&tables);
        assert_eq!(canonical(&structured), file, "seed {seed}");
        assert_eq!(written(&again), file, "seed {seed}");
    }
}

/// Room for exactly the file, for one byte less, and for more.
#[test]
fn room_decides_between_0_and_16() {
    for seed in 0..MESHES / 3 {
        let mut random = Random::new(seed);
        let tables = tables_of(&mesh(&mut random));
        let file = written(&tables);

        let mut less = vec![0xa5; file.len() - 1 - random.index(file.len() / 2)];
        let expected = Written {
            number: 16,
            place: 0,
            length: file.len() as u64,
        };
        assert_eq!(write(&tables, &mut less), expected, "seed {seed}");
        assert!(less.iter().all(|&byte| byte == 0xa5), "seed {seed}");
        let mut one_less = vec![0xa5; file.len() - 1];
        assert_eq!(write(&tables, &mut one_less), expected, "seed {seed}");
        assert!(one_less.iter().all(|&byte| byte == 0xa5), "seed {seed}");

        let mut more = vec![0xa5; file.len() + 1 + random.index(50)];
        let expected = Written {
            number: 0,
            ..expected
        };
        assert_eq!(write(&tables, &mut more), expected, "seed {seed}");
        assert_eq!(more[..file.len()], file, "seed {seed}");
        assert!(more[file.len()..].iter().all(|&byte| byte == 0xa5));
    }
}

/// Damaged meshes are 17, with room and without, and nothing is written.
#[test]
fn a_damaged_mesh_is_17() {
    for seed in 0..100 {
        let mut random = Random::new(seed);
        let whole = rich_mesh(&mut random);
        assert!(is_mesh(&tables_of(&whole)), "seed {seed}");
        let list = damaged(&mut random, &whole);
        assert!(list.len() > 80);
        for one in list {
            let tables = tables_of(&one.mesh);
            assert!(!is_mesh(&tables), "{} seed {seed}", one.name);
            let mut out = vec![0xa5; 40_000];
            assert_eq!(write(&tables, &mut out), refused(17), "{}", one.name);
            assert!(out.iter().all(|&byte| byte == 0xa5), "{}", one.name);
            assert_eq!(write(&tables, &mut []), refused(17), "{}", one.name);
        }
    }
}

/// 18 comes before 16, 17 before 18.
#[test]
fn a_file_too_long_is_18() {
    check_file_limit(at_file_limit);
}

/// The 16 bytes of a PTAG PART count too: without it, the file that is two bytes
/// too long would fit.
#[test]
fn a_file_too_long_by_its_parts_is_18() {
    check_file_limit(parts_at_file_limit);
    let mut without = parts_at_file_limit(true);
    without.set_part(0, 0);
    let needed = Written {
        number: 16,
        place: 0,
        length: 16_777_218 - 16,
    };
    assert_eq!(write(&tables_of(&without), &mut []), needed);
}

fn check_file_limit(mesh: fn(bool) -> PlainMesh) {
    let fits = tables_of(&mesh(false));
    let needed = Written {
        number: 16,
        place: 0,
        length: 16_777_216,
    };
    assert_eq!(write(&fits, &mut []), needed);
    let file = written(&fits);
    assert_eq!(file.len(), 16_777_216);
    assert_eq!(accepted(&file).1, fits);

    let mut over = tables_of(&mesh(true));
    assert_eq!(write(&over, &mut []), refused(18));
    let mut out = vec![0xa5; 16_777_300];
    assert_eq!(write(&over, &mut out), refused(18));
    assert!(out.iter().all(|&byte| byte == 0xa5));
    over.points[5] = 0x7f80_0000;
    assert_eq!(write(&over, &mut out), refused(17));
    assert!(out.iter().all(|&byte| byte == 0xa5));
}

/// "over 16,777,216 entries" is 17; at the bound it is only too long.
#[test]
fn tables_have_a_bound() {
    let bound = 16_777_216;
    for (points, number) in [(bound, 18), (bound + 1, 17)] {
        let tables = Tables {
            points: vec![0; points * 3],
            ..Tables::default()
        };
        assert_eq!(write(&tables, &mut []), refused(number), "{points} points");
    }
    for (vertices, number) in [(bound, 18), (bound + 1, 17)] {
        let tables = faces_with(vertices);
        assert_eq!(
            write(&tables, &mut []),
            refused(number),
            "{vertices} vertices"
        );
    }
    for (bytes, number) in [(bound, 18), (bound + 1, 17)] {
        let tables = names_with(bytes);
        assert_eq!(
            write(&tables, &mut []),
            refused(number),
            "{bytes} name bytes"
        );
    }
}

/// One point, and faces with so many vertices in all.
fn faces_with(vertices: usize) -> Tables {
    let mut mesh = PlainMesh {
        points: vec![0; 3],
        vertices: vec![0; vertices],
        ..PlainMesh::default()
    };
    let mut rest = vertices as u32;
    while rest > 0 {
        let count = rest.min(1_023);
        mesh.polygons.extend_from_slice(&[1, count, 0, 0]);
        rest -= count;
    }
    tables_of(&mesh)
}

/// Names with so many bytes in all, no two equal: all of 255 bytes but the
/// last.
fn names_with(bytes: usize) -> Tables {
    let mut mesh = PlainMesh::default();
    for number in 0..bytes / 255 {
        let name = format!("{number:0>255}");
        mesh.add_name(name.as_bytes(), &UNDEFINED);
    }
    mesh.add_name(&vec![b'.'; bytes % 255], &UNDEFINED);
    assert_eq!(mesh.name_bytes.len(), bytes);
    tables_of(&mesh)
}

/// A surface and a part may be 65,536 but no more, however many names there are.
#[test]
fn a_surface_or_part_is_at_most_65536() {
    for (surface, part) in [(65_536, 0), (0, 65_536), (65_535, 65_536)] {
        let good = tables_of(&many_names(surface, part));
        assert_eq!(good.names.len(), 65_540);
        assert_eq!(accepted(&written(&good)).1, good);
    }
    for above in [65_537, 65_540] {
        for (surface, part) in [(above, 0), (0, above)] {
            let bad = tables_of(&many_names(surface, part));
            assert_eq!(write(&bad, &mut []), refused(17), "{surface} {part}");
        }
    }
}

/// "A part above the name count": with two names, 2 is the last.
#[test]
fn a_part_is_at_most_the_name_count() {
    let mut mesh = PlainMesh {
        points: vec![0; 3],
        ..PlainMesh::default()
    };
    mesh.add_name(b"a", &UNDEFINED);
    mesh.add_name(b"b", &UNDEFINED);
    for (part, told) in [(0, 16), (1, 16), (2, 16), (3, 17), (u32::MAX, 17)] {
        let mut mesh = mesh.clone();
        mesh.add_polygon_of_part(1, &[0], 0, part);
        let number = write(&tables_of(&mesh), &mut []).number;
        assert_eq!(number, told, "{part}");
    }
}

/// "Shortest VX": the length says which form each index has.
#[test]
fn indices_take_the_shortest_form() {
    let mesh = tables_of(&long_indices());
    let file = written(&mesh);
    let (short, long) = (65_280, 2);
    let polygons = 4 + (short + long) * 2 + short * 2 + long * 4;
    let pairs = 4 + short * 4 + long * 6;
    let length = 12 + 12 + 8 + 65_282 * 12 + 8 + polygons + 2 * (8 + pairs);
    assert_eq!(file.len(), length);
    assert_eq!(accepted(&file).1, mesh);
}

/// "Empty chunks are left out", but TAGS with one empty name is not empty.
#[test]
fn empty_chunks_are_left_out() {
    assert_eq!(written(&Tables::default()), b"FORM\0\0\0\x04LWO2");
    let mut one_name = PlainMesh::default();
    one_name.add_name(b"", &UNDEFINED);
    let file = hex("464f524d 0000000e 4c574f32 54414753 00000002 0000");
    assert_eq!(written(&tables_of(&one_name)), file);
}

/// Worked by hand: two runs, the second without tags, and one defined name
/// that no polygon uses.
#[test]
fn a_file_worked_by_hand() {
    let mut mesh = PlainMesh {
        points: vec![0x3f80_0000, 0x8000_0000, 0],
        ..PlainMesh::default()
    };
    mesh.add_name(b"a", &UNDEFINED);
    let levels = [1, 2, 3, 4, 5, 6, 7, 8];
    let mut record = UNDEFINED;
    record[0] = 1;
    record[1..9].copy_from_slice(&levels);
    record[9] = 3;
    mesh.add_name(b"bc", &record);
    mesh.add_polygon(2, &[0], 0);
    mesh.add_polygon(2, &[0, 0], 1);
    mesh.add_polygon(1, &[0], 0);
    let file = hex("464f524d 000000c2 4c574f32
         54414753 00000006 6100 62630000
         504e5453 0000000c 3f800000 80000000 00000000
         504f4c53 0000000e 50544348 0001 0000 0002 0000 0000
         50544147 00000008 53555246 0001 0000
         504f4c53 00000008 46414345 0001 0000
         53555246 0000005e 62630000 0000
         434f4c52 000e 00000001 00000002 00000003 0000
         44494646 0006 00000004 0000
         4c554d49 0006 00000005 0000
         53504543 0006 00000006 0000
         5245464c 0006 00000007 0000
         5452414e 0006 00000008 0000
         53494445 0002 0003");
    assert_eq!(written(&tables_of(&mesh)), file);
}

/// "a PTAG PART for each run with a part name, after its PTAG SURF if any",
/// worked by hand: a run with both, one with a part alone, one with a surface
/// alone, and one with neither. The pairs are those of the polygons that have
/// one, ascending.
#[test]
fn parts_worked_by_hand() {
    let mut mesh = PlainMesh {
        points: vec![0; 3],
        ..PlainMesh::default()
    };
    for name in [&b"oak"[..], b"head", b"tail"] {
        mesh.add_name(name, &UNDEFINED);
    }
    let rows = [
        (1, 0, 2),
        (1, 1, 0),
        (1, 1, 3),
        (2, 0, 1),
        (2, 0, 0),
        (1, 3, 0),
        (2, 0, 0),
    ];
    for (kind, surface, part) in rows {
        mesh.add_polygon_of_part(kind, &[0], surface, part);
    }
    let file = hex("464f524d 000000c4 4c574f32
         54414753 00000010 6f616b00 68656164 0000 7461696c 0000
         504e5453 0000000c 00000000 00000000 00000000
         504f4c53 00000010 46414345 0001 0000 0001 0000 0001 0000
         50544147 0000000c 53555246 0001 0000 0002 0000
         50544147 0000000c 50415254 0000 0001 0002 0002
         504f4c53 0000000c 50544348 0001 0000 0001 0000
         50544147 00000008 50415254 0000 0000
         504f4c53 00000008 46414345 0001 0000
         50544147 00000008 53555246 0000 0002
         504f4c53 00000008 50544348 0001 0000");
    let tables = tables_of(&mesh);
    assert_eq!(written(&tables), file);
    assert_eq!(accepted(&file).1, tables);
}
