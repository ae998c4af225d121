//! The crate's meshes against what is known of the samples, and against the second program.

use std::fs;
use std::io::ErrorKind;
use std::path::Path;

use cases::assemble::{chunk, form, join};
use cases::files::files;
use cases::meshes::{at_file_limit, damaged, mesh, rich_mesh};
use cases::plain::PlainMesh;
use cases::random::Random;
use lwo::{
    Counts, Kind, Mesh, MeshBuilder, ReadError, Reading, Refusal, RefusalKind, Sides, Surface,
    Tables, NO_PART, NO_SURFACE, POLYGON_WORDS, RECORD_WORDS,
};

const FILES: usize = 900;

fn sample(name: &str) -> Vec<u8> {
    let folder = Path::new(env!("CARGO_MANIFEST_DIR")).join("../../samples");
    fs::read(folder.join(name)).expect(name)
}

fn tables_of(plain: PlainMesh) -> Tables {
    Tables {
        points: plain.points,
        polygons: plain.polygons,
        vertices: plain.vertices,
        names: plain.names,
        name_bytes: plain.name_bytes,
        records: plain.records,
    }
}

/// The second program's tables as the crate has them.
fn second_tables(mesh: &second::Mesh) -> Tables {
    let tables = mesh.tables();
    Tables {
        points: tables.points,
        polygons: tables.polygons,
        vertices: tables.vertices,
        names: tables.names,
        name_bytes: tables.name_bytes,
        records: tables.records,
    }
}

#[test]
fn the_triangle_of_oak() {
    let mesh = Mesh::read(&sample("oak.lwo")).expect("case l is accepted");
    let points: Vec<[f32; 3]> = mesh.points().collect();
    assert_eq!(points, [[0.0, 0.0, 0.0], [1.0, 0.0, 0.0], [0.0, 2.0, 0.0]]);
    assert_eq!(mesh.point_bits()[2], [0, 0x4000_0000, 0]);

    let polygon = mesh.polygons().next().expect("one polygon");
    assert_eq!((polygon.kind, polygon.surface), (Kind::Face, 1));
    assert_eq!(polygon.vertices, [0, 1, 2]);
    assert_eq!(polygon.name_index(), Some(0));
    assert_eq!((polygon.part, polygon.part_index()), (NO_PART, None));

    let surface = mesh.surfaces().next().expect("one surface");
    assert_eq!(surface.name.as_bytes(), b"Oak");
    assert!(!surface.defined);
    assert_eq!((surface.colour, surface.diffuse), ([1.0; 3], 1.0));
    assert_eq!(surface.sides, Sides::Front);
    assert_eq!(mesh.to_lwo2(), Ok(sample("oak.lwo")));
}

#[test]
fn the_polygons_of_a_chest() {
    let mesh = Mesh::read(&sample("chest.lwo")).expect("it is accepted");
    assert_eq!((mesh.points().len(), mesh.polygons().len()), (12, 7));
    let surfaces: Vec<u32> = mesh.polygons().map(|polygon| polygon.surface).collect();
    assert_eq!(surfaces, [1, 1, 2, 1, 1, 1, 1]);
    let lid = mesh.polygons().last().expect("a lid");
    assert_eq!((lid.kind, lid.vertices), (Kind::Patch, &[8, 11, 10, 9][..]));
}

/// The panel's gilding has levels of both forms, and its oak is seen from both sides.
#[test]
fn the_surfaces_of_a_panel() {
    let mesh = Mesh::read(&sample("panel.lwo")).expect("it is accepted");
    let names: Vec<_> = mesh.names().map(|name| name.to_string_lossy()).collect();
    assert_eq!(names, ["Oak", "Gilding", "Ash"]);

    let surfaces: Vec<_> = mesh.surfaces().collect();
    let [oak, gilding, ash] = surfaces[..] else {
        panic!("{surfaces:?}");
    };
    assert_eq!(oak.colour, [0.6, 0.4, 0.2]);
    assert_eq!((oak.diffuse, oak.sides), (230.0 / 256.0, Sides::Both));
    assert_eq!(gilding.colour, [1.0, 0.8, 0.0]);
    assert_eq!((gilding.luminosity, gilding.specular), (0.25, 1.0));
    assert_eq!((gilding.diffuse, gilding.sides), (0.0, Sides::Front));
    assert_eq!((gilding.reflection, gilding.transparency), (0.0, 0.0));
    assert_eq!(
        [oak.defined, gilding.defined, ash.defined],
        [true, true, false]
    );
}

#[test]
fn what_is_not_in_the_mesh_is_counted() {
    let reading = Reading::of(&sample("rosette.lwo")).expect("it is accepted");
    let wanted = Counts {
        points: 8,
        polygons: 6,
        vertices: 24,
        names: 2,
        name_bytes: 13,
        skipped: 1,
        details: 2,
    };
    assert_eq!(reading.counts, wanted);
    assert_eq!(Counts::of(&sample("rosette.lwo")), Ok(wanted));
}

#[test]
fn generated_files_are_answered_as_by_the_second_program() {
    let (mut accepted, mut refused) = (0, 0);
    for (name, file) in files(5).take(FILES) {
        match second::rules(&file) {
            Ok((mesh, skipped, details)) => {
                accepted += 1;
                let reading = Reading::of(&file).unwrap_or_else(|why| panic!("{name}: {why}"));
                let counts = (reading.counts.skipped, reading.counts.details);
                assert_eq!(counts, (skipped, details), "{name}");
                assert_eq!(*reading.mesh.tables(), second_tables(&mesh), "{name}");
                assert_eq!(Counts::of(&file), Ok(reading.counts), "{name}");
            }
            Err(why) => {
                refused += 1;
                let kind = RefusalKind::from_number(why.number()).expect("a kind");
                let refusal = Refusal::new(kind, why.place());
                assert_eq!(Mesh::read(&file), Err(refusal), "{name}");
                assert_eq!(Counts::of(&file), Err(refusal), "{name}");
            }
        }
    }
    assert!(
        accepted > FILES / 4 && refused > FILES / 4,
        "{accepted}, {refused}"
    );
}

#[test]
fn generated_meshes_are_written_and_read_back() {
    for seed in 0..300 {
        let tables = tables_of(mesh(&mut Random::new(seed)));
        let mesh = Mesh::from_tables(tables.clone()).expect("a mesh");
        let file = mesh.to_lwo2().expect("a short file");
        assert_eq!(
            file,
            second::canonical(&second_mesh(&tables)),
            "seed {seed}"
        );
        assert_eq!(Mesh::read(&file).as_ref(), Ok(&mesh), "seed {seed}");
        assert_eq!(mesh.into_tables(), tables, "seed {seed}");
    }
}

fn second_mesh(tables: &Tables) -> second::Mesh {
    let tables = tables.clone();
    second::Mesh::from_tables(&second::Tables {
        points: tables.points,
        polygons: tables.polygons,
        vertices: tables.vertices,
        names: tables.names,
        name_bytes: tables.name_bytes,
        records: tables.records,
    })
}

/// What the iterators give is what the tables hold, word for word.
#[test]
fn iterators_go_through_the_whole_mesh() {
    for seed in 0..100 {
        let tables = tables_of(mesh(&mut Random::new(seed)));
        let mesh = Mesh::from_tables(tables.clone()).expect("a mesh");
        let mut again = Tables {
            points: mesh.points().flatten().map(f32::to_bits).collect(),
            ..Tables::default()
        };
        for polygon in mesh.polygons() {
            let count = polygon.vertices.len() as u32;
            let entry: [u32; POLYGON_WORDS] =
                [polygon.kind.number(), count, polygon.surface, polygon.part];
            again.polygons.extend(entry);
            again.vertices.extend(polygon.vertices);
        }
        for surface in mesh.surfaces() {
            let name = surface.name.as_bytes();
            again.names.push(name.len() as u32);
            again.name_bytes.extend(name);
            again.records.extend(record_of(&surface));
        }
        assert_eq!(again, tables, "seed {seed}");
    }
}

fn record_of(surface: &Surface) -> [u32; RECORD_WORDS] {
    let [red, green, blue] = surface.colour.map(f32::to_bits);
    [
        u32::from(surface.defined),
        red,
        green,
        blue,
        surface.diffuse.to_bits(),
        surface.luminosity.to_bits(),
        surface.specular.to_bits(),
        surface.reflection.to_bits(),
        surface.transparency.to_bits(),
        surface.sides.number(),
    ]
}

#[test]
fn tables_that_are_no_mesh_are_refused() {
    let mut random = Random::new(11);
    let whole = rich_mesh(&mut random);
    for one in damaged(&mut random, &whole) {
        let refusal = Mesh::from_tables(tables_of(one.mesh));
        let wanted = Refusal::new(RefusalKind::NotAMesh, 0);
        assert_eq!(refusal, Err(wanted), "{}", one.name);
    }
}

/// A mesh whose file is as long as one of its size can be: every polygon in chunks of its own, with
/// a surface and a part, every index in four bytes.
#[test]
fn the_longest_file_of_a_size_is_written() {
    let mut builder = MeshBuilder::new();
    let last = (0..70_000).map(|_| builder.point([0.0; 3])).last();
    let last = last.expect("a point");
    let surface = builder.surface(&Surface::new("o"));
    for _ in 0..200 {
        builder.polygon_of_part(Kind::Face, surface, surface, &[last]);
        builder.polygon_of_part(Kind::Patch, surface, surface, &[last]);
    }
    let mesh = builder.build().expect("a mesh");
    let file = mesh.to_lwo2().expect("a file");
    assert_eq!(file, second::canonical(&second_mesh(mesh.tables())));
}

/// A mesh whose canonical file is over the limit is a mesh, and cannot be written.
#[test]
fn a_canonical_file_too_long_is_refused() {
    let longest = Mesh::from_tables(tables_of(at_file_limit(false))).expect("a mesh");
    let file = longest.to_lwo2().expect("a file within the limit");
    assert!(file.len() <= lwo::FILE_LIMIT, "{}", file.len());
    assert!(Mesh::read(&file).as_ref() == Ok(&longest));

    let longer = Mesh::from_tables(tables_of(at_file_limit(true))).expect("a mesh");
    let refusal = Refusal::new(RefusalKind::OutTooLong, 0);
    assert_eq!(longer.to_lwo2(), Err(refusal));
}

/// By its number each thing is the one that the iterators give in its turn, and no more.
#[test]
fn things_are_found_by_their_numbers() {
    for seed in 0..100 {
        let mesh = Mesh::from_tables(tables_of(mesh(&mut Random::new(seed)))).expect("a mesh");
        fn all<T>(of: impl Fn(usize) -> Option<T>) -> Vec<T> {
            (0..).map_while(of).collect()
        }
        assert_eq!(
            all(|number| mesh.point(number)),
            mesh.points().collect::<Vec<_>>()
        );
        assert_eq!(
            all(|number| mesh.polygon(number)),
            mesh.polygons().collect::<Vec<_>>()
        );
        assert_eq!(
            all(|index| mesh.name(index)),
            mesh.names().collect::<Vec<_>>()
        );
        assert_eq!(
            all(|index| mesh.surface(index)),
            mesh.surfaces().collect::<Vec<_>>()
        );
        for polygon in mesh.polygons() {
            let surface = mesh.surface_of(&polygon);
            let name = polygon.name_index().and_then(|index| mesh.name(index));
            assert_eq!(surface.map(|surface| surface.name), name);
            assert_eq!(surface.is_none(), polygon.surface == NO_SURFACE);
            let part = polygon.part_index().and_then(|index| mesh.name(index));
            assert_eq!(mesh.part_of(&polygon), part);
            assert_eq!(part.is_none(), polygon.part == NO_PART);
        }
        let past = [mesh.polygons().len(), usize::MAX];
        assert!(past.iter().all(|&number| mesh.polygon(number).is_none()));
    }
}

/// A mesh is made again of what its own methods give.
#[test]
fn a_mesh_is_built_of_plain_data() {
    for seed in 0..100 {
        let mesh = Mesh::from_tables(tables_of(mesh(&mut Random::new(seed)))).expect("a mesh");
        let mut builder = MeshBuilder::new();
        for (number, point) in (0..).zip(mesh.points()) {
            assert_eq!(builder.point(point), number);
        }
        for (number, surface) in (1..).zip(mesh.surfaces()) {
            let given = match surface.defined {
                true => builder.surface(&surface),
                false => builder.name(surface.name),
            };
            assert_eq!(given, number);
        }
        for polygon in mesh.polygons() {
            match polygon.part {
                NO_PART => builder.polygon(polygon.kind, polygon.surface, polygon.vertices),
                part => {
                    builder.polygon_of_part(polygon.kind, polygon.surface, part, polygon.vertices)
                }
            }
        }
        assert_eq!(builder.build().as_ref(), Ok(&mesh), "seed {seed}");
    }
}

#[test]
fn what_is_no_mesh_is_not_built() {
    let refused = Err(Refusal::new(RefusalKind::NotAMesh, 0));
    let mut builder = MeshBuilder::new();
    let point = builder.point([0.0; 3]);
    for (kind, surface, part, vertices) in [
        (Kind::Face, NO_SURFACE, NO_PART, &[point + 1][..]),
        (Kind::Patch, NO_SURFACE, NO_PART, &[]),
        (Kind::Face, 1, NO_PART, &[point]),
        (Kind::Face, NO_SURFACE, 1, &[point]),
    ] {
        let mut wrong = builder.clone();
        wrong.polygon_of_part(kind, surface, part, vertices);
        assert_eq!(wrong.build(), refused);
    }
    for wrong_point in [f32::NAN, f32::INFINITY] {
        let mut wrong = builder.clone();
        wrong.point([0.0, wrong_point, 0.0]);
        assert_eq!(wrong.build(), refused);
    }
    for names in [&["Oak", "Oak"][..], &["O\0k"], &[&"o".repeat(256)]] {
        let mut wrong = builder.clone();
        names
            .iter()
            .for_each(|name| assert_ne!(wrong.name(*name), NO_SURFACE));
        assert_eq!(wrong.build(), refused);
    }
    assert!(builder.build().is_ok());
}

/// The values of a name without a SURF are those that the library gives it.
#[test]
fn the_missing_values_are_the_librarys() {
    let mesh = Mesh::read(&sample("oak.lwo")).expect("it is accepted");
    assert_eq!(mesh.surface(0), Some(Surface::undefined("Oak")));
}

/// "The missing colour becomes 1.0, 1.0, 1.0, for SURF chunks without COLR and for names without
/// SURF", of either kind of file: "a" has a SURF, "b" has none.
#[test]
fn no_board_is_grey() {
    let lwob = b"FORM\0\0\0\x1aLWOBSRFS\0\0\0\x04a\0b\0SURF\0\0\0\x02a\0";
    let lwo2 = b"FORM\0\0\0\x1cLWO2TAGS\0\0\0\x04a\0b\0SURF\0\0\0\x04a\0\0\0";
    for file in [&lwob[..], lwo2] {
        let mesh = Mesh::read(file).expect("it is accepted");
        let seen: Vec<_> = mesh.surfaces().map(|s| (s.defined, s.colour)).collect();
        assert_eq!(seen, [(true, [1.0; 3]), (false, [1.0; 3])]);
    }
    let mesh = Mesh::read(lwo2).expect("it is accepted");
    assert_eq!(mesh.surface(0), Some(Surface::new("a")));
}

/// "a kept table with the old one is 17."
#[test]
fn an_undefined_surface_of_the_old_colour_is_no_mesh() {
    let mut old = Surface::undefined("a");
    old.colour = [0.5; 3];
    let mut builder = MeshBuilder::new();
    builder.surface(&old);
    let refused = builder.build().expect_err("it has a colour of its own");
    assert_eq!(refused.kind, RefusalKind::NotAMesh);
}

#[test]
fn a_file_is_opened_by_its_name_or_read_from_a_stream() {
    let path = Path::new(env!("CARGO_MANIFEST_DIR")).join("../../samples/panel.lwo");
    let mesh = Mesh::read(&sample("panel.lwo")).expect("it is accepted");
    assert_eq!(Mesh::open(&path).expect("it is there"), mesh);
    assert_eq!(
        Mesh::from_reader(&sample("panel.lwo")[..]).expect("it is there"),
        mesh
    );
    assert_eq!(Reading::open(&path).expect("it is there").counts.details, 1);

    let refused = Mesh::from_reader(&sample("damaged.lwo")[..]).expect_err("it is damaged");
    assert!(matches!(refused, ReadError::Refused(why) if why.number() == 9));
    let endless = Mesh::from_reader(std::io::repeat(b'F')).expect_err("it has no end");
    assert!(matches!(endless, ReadError::Refused(why) if why.kind == RefusalKind::FileTooLong));
    let missing = Mesh::open("no/such/file").expect_err("it is not there");
    assert!(matches!(missing, ReadError::Io(why) if why.kind() == ErrorKind::NotFound));
}

/// Files that need more than the tables that are tried first: polygons of one vertex, and very
/// many names. Both are read as the second program reads them.
#[test]
fn files_that_need_longer_tables_are_read() {
    let polygons = [&b"FACE"[..], &[0, 1, 0, 0].repeat(5_000)].concat();
    let names: Vec<u8> = (0..4_000u16)
        .flat_map(|number| format!("{number:03x}\0").into_bytes())
        .collect();
    for chunks in [
        [chunk(b"PNTS", &[0; 12]), chunk(b"POLS", &polygons)],
        [chunk(b"TAGS", &names), chunk(b"NOTE", b"")],
    ] {
        let file = form(cases::assemble::Kind::Lwo2, &join(&chunks));
        let (mesh, ..) = second::rules(&file).expect("the second program accepts it");
        let reading = Reading::of(&file).expect("it is accepted");
        assert_eq!(*reading.mesh.tables(), second_tables(&mesh));
    }
}
