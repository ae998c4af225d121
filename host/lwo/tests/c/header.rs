//! The C header against the library, and the example that uses both.

use std::fs;
use std::path::Path;
use std::process::Command;

use crate::compile::{gcc_with_header, host, program, succeed};

#[test]
fn a_c_program_reads_and_writes() {
    let source = Path::new(env!("CARGO_MANIFEST_DIR")).join("tests/c/header.c");
    assert_eq!(succeed(&mut Command::new(program(&source))), "");
}

/// The header by itself, in the languages that gcc was installed with.
#[test]
fn the_header_is_c_and_cpp() {
    let source = Path::new(env!("CARGO_TARGET_TMPDIR")).join("only-the-header.c");
    fs::write(&source, "#include <lwo.h>\n").expect("the source is written");
    let mut languages = vec![["c", "-std=c99"], ["c", "-std=c2x"]];
    if knows_cpp() {
        languages.extend([["c++", "-std=c++98"], ["c++", "-std=c++17"]]);
    }
    for [language, standard] in languages {
        let mut compile = gcc_with_header();
        compile.args(["-fsyntax-only", standard, "-x", language]);
        // Fixed-width integers are C99's; the C++ of 1998 has them as an extension.
        succeed(compile.arg("-Wno-long-long").arg(&source));
    }
}

/// gcc gives the whole path of the C++ compiler where it has one, and else only its name.
fn knows_cpp() -> bool {
    let printed = succeed(Command::new("gcc").arg("-print-prog-name=cc1plus"));
    Path::new(printed.trim()).is_absolute()
}

/// The number behind a name that the header defines.
pub fn defined(name: &str) -> String {
    let header = fs::read_to_string(host().join("include/lwo.h")).expect("the header");
    let start = format!("#define {name} ");
    let line = header.lines().find_map(|line| line.strip_prefix(&start));
    let words = line.unwrap_or_else(|| panic!("{name} is not defined"));
    words.split(" /*").next().unwrap_or(words).trim().to_owned()
}

/// What the header and the crate both say is the same.
#[test]
fn the_header_and_the_crate_agree() {
    let numbers = ["MAJOR", "MINOR", "PATCH"].map(|part| defined(&format!("LWO_VERSION_{part}")));
    assert_eq!(numbers.join("."), env!("CARGO_PKG_VERSION"));
    assert_eq!(
        defined("LWO_VERSION"),
        format!("{:?}", env!("CARGO_PKG_VERSION"))
    );
    for (name, value) in [
        ("LWO_FILE_BYTES", lwo::FILE_LIMIT),
        ("LWO_POINT_WORDS", lwo::POINT_WORDS),
        ("LWO_POLYGON_WORDS", lwo::POLYGON_WORDS),
        ("LWO_RECORD_WORDS", lwo::RECORD_WORDS),
        ("LWO_POLYGON_PART", lwo::POLYGON_WORDS - 1),
    ] {
        assert_eq!(defined(name), value.to_string(), "{name}");
    }
}

/// The header's name for a refusal: `LWO_FILE_TOO_LONG` for `FileTooLong`.
fn header_name(kind: lwo::RefusalKind) -> String {
    let mut name = String::from("LWO");
    for letter in format!("{kind:?}").chars() {
        if letter.is_uppercase() {
            name.push('_');
        }
        name.push(letter.to_ascii_uppercase());
    }
    name
}

#[test]
fn the_header_has_every_refusal() {
    for kind in lwo::RefusalKind::all() {
        let name = header_name(kind);
        assert_eq!(defined(&name), kind.number().to_string(), "{name}");
    }
}

/// One row a number, with both names.
#[test]
fn the_documents_have_every_refusal() {
    let text = fs::read_to_string(host().join("../docs/REFUSALS.md")).expect("the table");
    let rows: Vec<&str> = text.lines().filter(|line| line.starts_with("| ")).collect();
    let kinds: Vec<lwo::RefusalKind> = lwo::RefusalKind::all().collect();
    assert_eq!(rows.len(), kinds.len() + 1);
    for (row, kind) in rows[1..].iter().zip(kinds) {
        let begin = format!(
            "| {} | `{}` | `{kind:?}` | ",
            kind.number(),
            header_name(kind)
        );
        assert!(row.starts_with(&begin), "{row}");
    }
}

#[test]
fn the_example_prints_the_boards_of_a_file() {
    let boards = program(&host().join("examples/boards.c"));
    let of = |file: &str| {
        let mut command = Command::new(&boards);
        command.arg(file).current_dir(host().join("../samples"));
        command
    };
    let panel = r#""Oak": 1 faces, 0 patches, 4 vertices, 1200.000 x 600.000 x 0.000 mm
"Gilding": 1 faces, 0 patches, 3 vertices, 600.000 x 300.000 x 0.000 mm
"Ash": 0 faces, 1 patches, 4 vertices, 1200.000 x 600.000 x 0.000 mm
"#;
    assert_eq!(succeed(&mut of("panel.lwo")), panel);
    let horse = r#""Oak", part "head": 1 faces, 0 patches, 4 vertices, 500.000 x 400.000 x 0.000 mm
"Pine", part "head": 1 faces, 0 patches, 4 vertices, 400.000 x 400.000 x 0.000 mm
no surface, part "head": 1 faces, 0 patches, 3 vertices, 40.000 x 40.000 x 0.000 mm
"Oak", part "saddle": 1 faces, 0 patches, 4 vertices, 200.000 x 300.000 x 0.000 mm
"Pine", part "saddle": 0 faces, 1 patches, 4 vertices, 300.000 x 0.000 x 300.000 mm
"Oak": 2 faces, 0 patches, 8 vertices, 800.000 x 600.000 x 0.000 mm
"Pine": 1 faces, 0 patches, 4 vertices, 800.000 x 400.000 x 0.000 mm
"#;
    assert_eq!(succeed(&mut of("horse.lwo")), horse);
    let refused = of("damaged.lwo").output().expect("it starts");
    assert_eq!(refused.status.code(), Some(1));
    assert_eq!(refused.stderr, b"damaged.lwo: refused 9 at 86\n");
    assert_eq!(
        of("none.lwo").output().expect("it starts").status.code(),
        Some(1)
    );
}
