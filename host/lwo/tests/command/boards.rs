//! `lwo boards`.

use std::fs;

use lwo::{Kind, MeshBuilder, Surface, NO_PART, NO_SURFACE};

use crate::help::{folder_with, run, run_with_input, samples, Run};

fn file_of(builder: MeshBuilder) -> Vec<u8> {
    let mesh = builder.build().expect("a mesh");
    mesh.to_lwo2().expect("a file")
}

#[test]
fn a_panel_has_its_boards() {
    let printed = r#"panel.lwo:
  faces  patches  vertices      x mm     y mm   z mm             colour  board
      1        0         4  1200.000  600.000  0.000  0.600 0.400 0.200  "Oak"
      1        0         3   600.000  300.000  0.000  1.000 0.800 0.000  "Gilding"
      0        1         4  1200.000  600.000  0.000               none  "Ash"
"#;
    let done = run(&samples(), &["boards", "panel.lwo"]);
    assert_eq!(done, Run::new(0, printed, ""));
}

#[test]
fn several_files_have_a_total() {
    let printed = r#"oak.lwo:
  faces  patches  vertices      x mm      y mm   z mm  colour  board
      1        0         3  1000.000  2000.000  0.000    none  "Oak"
damaged.lwo: refused 9 at 86 (POLS at 68): a polygon names a point that the latest point list does not have; found point 3, expected 0 to 2 (PNTS at 24)
panel.lwo:
  faces  patches  vertices      x mm     y mm   z mm             colour  board
      1        0         4  1200.000  600.000  0.000  0.600 0.400 0.200  "Oak"
      1        0         3   600.000  300.000  0.000  1.000 0.800 0.000  "Gilding"
      0        1         4  1200.000  600.000  0.000               none  "Ash"
total of 3 files, 1 of them not counted:
  faces  patches  vertices             colour  board
      2        0         7            several  "Oak"
      1        0         3  1.000 0.800 0.000  "Gilding"
      0        1         4               none  "Ash"
"#;
    let done = run(
        &samples(),
        &["boards", "oak.lwo", "damaged.lwo", "panel.lwo"],
    );
    assert_eq!(done, Run::new(1, printed, ""));
}

/// Polygons without a surface come last, and no name looks like them or like another.
#[test]
fn polygons_without_a_surface_come_last() {
    let mut builder = MeshBuilder::new();
    let points = [[-0.5, 0.0, 0.0], [0.25, 0.0, 0.0], [0.0, 0.1, 1.0]].map(|at| builder.point(at));
    builder.polygon(Kind::Face, NO_SURFACE, &points);
    for name in [&b"no surface"[..], b"Silm\xe4", b"", b"Oak "] {
        let number = builder.name(name);
        builder.polygon(Kind::Patch, number, &points[..2]);
    }
    let file = file_of(builder);
    let printed = r#"standard input:
  faces  patches  vertices     x mm     y mm      z mm  colour  board
      0        1         2  750.000    0.000     0.000    none  "no surface"
      0        1         2  750.000    0.000     0.000    none  "Silm\xe4"
      0        1         2  750.000    0.000     0.000    none  "''"
      0        1         2  750.000    0.000     0.000    none  "Oak "
      1        0         3  750.000  100.000  1000.000          no surface
"#;
    let done = Run::from(run_with_input(&samples(), &["boards", "-"], &file));
    assert_eq!(done, Run::new(0, printed, ""));
}

/// By part in the order of the names, and within a part by board; what belongs to no part, or has
/// no surface, comes last.
#[test]
fn a_horse_has_its_boards_by_part() {
    let printed = r#"horse.lwo:
  faces  patches  vertices     x mm     y mm     z mm             colour  part      board
      1        0         4  500.000  400.000    0.000  0.600 0.400 0.200  "head"    "Oak"
      1        0         4  400.000  400.000    0.000  0.900 0.800 0.600  "head"    "Pine"
      1        0         3   40.000   40.000    0.000                     "head"    no surface
      1        0         4  200.000  300.000    0.000  0.600 0.400 0.200  "saddle"  "Oak"
      0        1         4  300.000    0.000  300.000  0.900 0.800 0.600  "saddle"  "Pine"
      2        0         8  800.000  600.000    0.000  0.600 0.400 0.200  none      "Oak"
      1        0         4  800.000  400.000    0.000  0.900 0.800 0.600  none      "Pine"
"#;
    let done = run(&samples(), &["boards", "horse.lwo"]);
    assert_eq!(done, Run::new(0, printed, ""));
}

/// A name that only polygons have as their part is no board: "Mähne". One that has a SURF is, and
/// one that no polygon has at all: "none", which does not look like no part, and "Elm".
#[test]
fn parts_and_boards_that_no_polygon_is_cut_from() {
    let mut builder = MeshBuilder::new();
    let points = [[0.0; 3], [0.25, 0.0, 0.5]].map(|at| builder.point(at));
    let mane = builder.name("Mähne");
    builder.name("Elm");
    let none = builder.surface(&Surface::new("none"));
    let oak = builder.name("Oak");
    for (surface, part) in [
        (NO_SURFACE, none),
        (oak, oak),
        (NO_SURFACE, NO_PART),
        (oak, mane),
    ] {
        builder.polygon_of_part(Kind::Face, surface, part, &points);
    }
    let printed = r#"standard input:
  faces  patches  vertices     x mm   y mm     z mm             colour  part     board
      1        0         2  250.000  0.000  500.000               none  "Mähne"  "Oak"
      1        0         2  250.000  0.000  500.000                     "none"   no surface
      1        0         2  250.000  0.000  500.000               none  "Oak"    "Oak"
      0        0         0                                        none  none     "Elm"
      0        0         0                           1.000 1.000 1.000  none     "none"
      1        0         2  250.000  0.000  500.000                     none     no surface
"#;
    let done = run_with_input(&samples(), &["boards", "-"], &file_of(builder));
    assert_eq!(Run::from(done), Run::new(0, printed, ""));
}

/// Parts and boards are the same if their names' bytes are, whatever their numbers. A file without
/// parts has its own table as before.
#[test]
fn a_total_has_parts_where_one_file_has_some() {
    let folder = folder_with("parts", &["oak.lwo", "horse.lwo"]);
    let mut builder = MeshBuilder::new();
    let point = builder.point([0.0; 3]);
    let [tail, head, oak] = ["tail", "head", "Oak"].map(|name| builder.name(name));
    builder.polygon_of_part(Kind::Face, oak, head, &[point]);
    builder.polygon_of_part(Kind::Patch, oak, tail, &[point]);
    fs::write(folder.join("foal.lwo"), file_of(builder)).expect("a file");
    let done = run(&folder, &["boards", "oak.lwo", "horse.lwo", "foal.lwo"]);
    let (begin, end) = (
        r#"oak.lwo:
  faces  patches  vertices      x mm      y mm   z mm  colour  board
      1        0         3  1000.000  2000.000  0.000    none  "Oak"
horse.lwo:
"#,
        r#"foal.lwo:
  faces  patches  vertices   x mm   y mm   z mm  colour  part    board
      0        1         1  0.000  0.000  0.000    none  "tail"  "Oak"
      1        0         1  0.000  0.000  0.000    none  "head"  "Oak"
total of 3 files:
  faces  patches  vertices             colour  part      board
      2        0         5            several  "head"    "Oak"
      1        0         4  0.900 0.800 0.600  "head"    "Pine"
      1        0         3                     "head"    no surface
      1        0         4            several  "saddle"  "Oak"
      0        1         4  0.900 0.800 0.600  "saddle"  "Pine"
      0        1         1            several  "tail"    "Oak"
      3        0        11            several  none      "Oak"
      1        0         4  0.900 0.800 0.600  none      "Pine"
"#,
    );
    assert_eq!((done.status, done.told.as_str()), (Some(0), ""));
    assert!(done.printed.starts_with(begin), "{}", done.printed);
    assert!(done.printed.ends_with(end), "{}", done.printed);
}

#[test]
fn a_file_of_nothing_has_no_boards() {
    let folder = folder_with("no-boards", &[]);
    fs::write(folder.join("empty.lwo"), b"FORM\0\0\0\x04LWO2").expect("a file");
    let printed = "empty.lwo: no boards\n";
    assert_eq!(
        run(&folder, &["boards", "empty.lwo"]),
        Run::new(0, printed, "")
    );
}

#[test]
fn boards_as_json() {
    let words = ["boards", "--json", "oak.lwo", "damaged.lwo"];
    let printed = "{\"file\":\"oak.lwo\",\"accepted\":true,\"boards\":[{\"name\":\"Oak\",\
\"name_hex\":\"4f616b\",\"colour\":null,\"faces\":1,\"patches\":0,\"vertices\":3,\
\"size_mm\":[1000.000,2000.000,0.000],\"lowest_mm\":[0.000,0.000,0.000],\
\"highest_mm\":[1000.000,2000.000,0.000]}],\"no_surface\":null,\"parts\":[]}
{\"file\":\"damaged.lwo\",\"accepted\":false,\"refused\":{\"number\":9,\"place\":86,\
\"chunk\":68,\"tag\":\"POLS\",\
\"meaning\":\"a polygon names a point that the latest point list does not have\",\
\"found\":\"point 3\",\"expected\":\"0 to 2 (PNTS at 24)\"}}
{\"total\":{\"files\":2,\"not_counted\":1,\"boards\":[{\"name\":\"Oak\",\
\"name_hex\":\"4f616b\",\"colour\":null,\"faces\":1,\"patches\":0,\"vertices\":3,\
\"size_mm\":null}],\"no_surface\":null,\"parts\":[]}}
";
    assert_eq!(run(&samples(), &words), Run::new(1, printed, ""));
}

/// A name is read as UTF-8, or as Latin-1 where it is none; a colour is told to the bit.
#[test]
fn names_and_colours_in_json() {
    let mut builder = MeshBuilder::new();
    let point = builder.point([0.0; 3]);
    let mut surface = Surface::new(&b"Silm\xe4"[..]);
    surface.colour = [0.1, 1.0 / 3.0, 1.0];
    builder.surface(&surface);
    builder.polygon(Kind::Face, NO_SURFACE, &[point]);
    let file = file_of(builder);
    let printed = "{\"file\":\"-\",\"accepted\":true,\"boards\":[{\"name\":\"Silmä\",\
\"name_hex\":\"53696c6de4\",\"colour\":[0.1,0.33333334,1],\"faces\":0,\"patches\":0,\
\"vertices\":0,\"size_mm\":null}],\"no_surface\":{\"faces\":1,\"patches\":0,\"vertices\":1,\
\"size_mm\":[0.000,0.000,0.000],\"lowest_mm\":[0.000,0.000,0.000],\
\"highest_mm\":[0.000,0.000,0.000]},\"parts\":[]}\n";
    let done = Run::from(run_with_input(
        &samples(),
        &["boards", "--json", "-"],
        &file,
    ));
    assert_eq!(done, Run::new(0, printed, ""));
}

/// `boards` and `no_surface` are over all parts, and "head" is no board; each part has its own, and
/// what belongs to none has no name.
#[test]
fn parts_in_json() {
    let folder = folder_with("parts-json", &[]);
    let mut builder = MeshBuilder::new();
    let points = [[0.0; 3], [0.5, 0.0, 0.0], [0.0, 2.0, 0.0]].map(|at| builder.point(at));
    let [oak, head] = ["Oak", "head"].map(|name| builder.name(name));
    for (surface, part, vertices) in [
        (oak, head, &points[..2]),
        (NO_SURFACE, head, &points[..1]),
        (oak, NO_PART, &points),
    ] {
        builder.polygon_of_part(Kind::Face, surface, part, vertices);
    }
    fs::write(folder.join("horse.lwo"), file_of(builder)).expect("a file");
    let counts = |faces: u64, vertices: u64, size: &str| {
        format!(r#""faces":{faces},"patches":0,"vertices":{vertices},{size}"#)
    };
    let reaching = |highest: &str| {
        format!(r#""size_mm":[{highest}],"lowest_mm":[0.000,0.000,0.000],"highest_mm":[{highest}]"#)
    };
    let members = |oaks: [String; 3], no_surface: String| {
        let [all, in_head, in_none] = oaks.map(|counts| {
            format!(r#""boards":[{{"name":"Oak","name_hex":"4f616b","colour":null,{counts}}}]"#)
        });
        let no_surface = format!(r#""no_surface":{{{no_surface}}}"#);
        let head = format!(r#"{{"name":"head","name_hex":"68656164",{in_head},{no_surface}}}"#);
        let none = format!(r#"{{"name":null,"name_hex":null,{in_none},"no_surface":null}}"#);
        format!(r#"{all},{no_surface},"parts":[{head},{none}]"#)
    };
    let whole = reaching("500.000,2000.000,0.000");
    let wide = reaching("500.000,0.000,0.000");
    let nowhere = reaching("0.000,0.000,0.000");
    let of_file = members(
        [
            counts(2, 5, &whole),
            counts(1, 2, &wide),
            counts(1, 3, &whole),
        ],
        counts(1, 1, &nowhere),
    );
    let no_size = r#""size_mm":null"#;
    let of_total = members(
        [(4, 10), (2, 4), (2, 6)].map(|(faces, vertices)| counts(faces, vertices, no_size)),
        counts(2, 2, no_size),
    );
    let line = format!("{{\"file\":\"horse.lwo\",\"accepted\":true,{of_file}}}\n");
    let total = format!("{{\"total\":{{\"files\":2,\"not_counted\":0,{of_total}}}}}\n");
    let words = ["boards", "--json", "horse.lwo", "horse.lwo"];
    let done = run(&folder, &words);
    assert_eq!(done, Run::new(0, &format!("{line}{line}{total}"), ""));
}

/// Where every polygon belongs to a part there is no entry without a name.
#[test]
fn polygons_of_no_part_are_told_only_where_there_are_some() {
    let mut builder = MeshBuilder::new();
    let point = builder.point([0.0; 3]);
    let head = builder.name("head");
    builder.polygon_of_part(Kind::Face, NO_SURFACE, head, &[point]);
    let done = run_with_input(&samples(), &["boards", "--json", "-"], &file_of(builder));
    let done = Run::from(done);
    assert!(
        done.printed.contains(r#""boards":[],"no_surface":{"#),
        "{done:?}"
    );
    assert!(
        done.printed.contains(
            r#""parts":[{"name":"head","name_hex":"68656164","boards":[],"no_surface":{"#
        ),
        "{done:?}"
    );
    assert!(!done.printed.contains(r#""name":null"#), "{done:?}");
}
