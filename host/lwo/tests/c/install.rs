//! `host/install`, into an empty folder, and a program that uses what it put there.

use std::fs;
use std::path::Path;
use std::process::Command;

use crate::compile::{gcc, host, succeed};

/// The program lies outside the repository and knows nothing but the prefix.
#[test]
fn what_is_installed_can_be_used() {
    let prefix = std::env::temp_dir().join(format!("lwo-installed-{}", std::process::id()));
    assert!(!prefix.exists());
    let root = host().canonicalize().expect("the folder host");
    succeed(Command::new(root.join("install")).arg(&prefix));

    let source = prefix.join("boards.c");
    fs::copy(root.join("examples/boards.c"), &source).expect("a copy");
    let program = prefix.join("boards");
    let mut compile = gcc();
    compile.args(["-std=c99", "boards.c"]).current_dir(&prefix);
    succeed(compile.args(flags(&prefix)).arg("-o").arg(&program));
    let sample = root.join("../samples/oak.lwo");
    let printed = succeed(Command::new(&program).arg(&sample));
    let board = "\"Oak\": 1 faces, 0 patches, 3 vertices, 1000.000 x 2000.000 x 0.000 mm\n";
    assert_eq!(printed, board);

    let version = succeed(Command::new(prefix.join("bin/lwo")).arg("--version"));
    assert_eq!(version, format!("lwo {}\n", env!("CARGO_PKG_VERSION")));
    fs::remove_dir_all(&prefix).expect("the folder goes");
}

/// What pkg-config would say, by its own rules: variables are put in, then the two lines of flags.
fn flags(prefix: &Path) -> Vec<String> {
    let text = fs::read_to_string(prefix.join("lib/pkgconfig/lwo.pc")).expect("lwo.pc");
    assert!(
        text.contains(&format!("\nVersion: {}\n", env!("CARGO_PKG_VERSION"))),
        "{text}"
    );
    let mut variables: Vec<(String, String)> = Vec::new();
    let mut flags = Vec::new();
    for line in text.lines() {
        let put_in = |text: &str| {
            let with = |text: String, (name, value): &(String, String)| {
                text.replace(&format!("${{{name}}}"), value)
            };
            variables.iter().fold(text.to_owned(), with)
        };
        if let Some(words) = line.strip_prefix("Cflags:").or(line.strip_prefix("Libs:")) {
            flags.extend(put_in(words).split_whitespace().map(String::from));
        } else if let Some((name, value)) = line.split_once('=') {
            let value = put_in(value);
            variables.push((name.to_owned(), value));
        }
    }
    flags
}
