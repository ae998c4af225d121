//! What the documents show is what the command prints.

use std::collections::BTreeSet;
use std::ffi::OsStr;
use std::fs;
use std::os::unix::ffi::OsStrExt;
use std::path::{Path, PathBuf};
use std::process::Command;

use crate::help::{folder_with, names_in, run, sample, samples};

/// A line that a person types, and the lines that come after it.
struct Shown {
    typed: String,
    printed: String,
}

fn document(name: &str) -> String {
    let root = Path::new(env!("CARGO_MANIFEST_DIR")).join("../..");
    fs::read_to_string(root.join(name)).expect(name)
}

/// The lines that begin with a dollar sign, each with what stands under it.
fn shown_in(text: &str) -> Vec<Shown> {
    let mut list: Vec<Shown> = Vec::new();
    for line in text.lines().filter_map(|line| line.strip_prefix("    ")) {
        match (line.strip_prefix("$ "), list.last_mut()) {
            (Some(typed), _) => list.push(Shown {
                typed: typed.to_owned(),
                printed: String::new(),
            }),
            (None, Some(shown)) => shown.printed += &format!("{line}\n"),
            (None, None) => (),
        }
    }
    list
}

/// A section of the README.
fn section(title: &str) -> String {
    let text = document("README.md");
    let rest = text
        .split(&format!("\n## {title}"))
        .nth(1)
        .expect("the section");
    rest.split("\n## ").next().unwrap_or(rest).to_owned()
}

/// A folder with all samples.
fn folder_of_samples(name: &str) -> PathBuf {
    let files: Vec<String> = names_in(&samples())
        .into_iter()
        .filter(|name| name.ends_with(".lwo"))
        .collect();
    let names: Vec<&str> = files.iter().map(String::as_str).collect();
    folder_with(name, &names)
}

/// Types every line in the folder, one after another.
fn must_print(folder: &Path, shown: Vec<Shown>) {
    let lwo = Path::new(env!("CARGO_BIN_EXE_lwo"));
    let path = format!(
        "{}:/usr/bin:/bin",
        lwo.parent().expect("a folder").display()
    );
    for Shown { typed, printed } in shown {
        let output = Command::new("sh")
            .args(["-c", &format!("{typed} 2>&1")])
            .env("PATH", &path)
            .current_dir(folder)
            .output()
            .expect("the shell starts");
        assert_eq!(String::from_utf8_lossy(&output.stdout), printed, "{typed}");
    }
}

/// The names of all members in lines of JSON: what stands in quotation marks before a colon.
fn members(lines: &str) -> BTreeSet<&str> {
    let parts: Vec<&str> = lines.split('"').collect();
    let pairs = parts.windows(2).filter(|pair| pair[1].starts_with(':'));
    pairs.map(|pair| pair[0]).collect()
}

/// Every member that is printed is told of, and every one that is told of is printed.
#[test]
fn the_members_of_json_are_told() {
    let folder = folder_with("json-members", &["chest.lwo", "saddle.lwo"]);
    fs::write(
        folder.join(OsStr::from_bytes(b"\xe4.lwo")),
        sample("oak.lwo"),
    )
    .expect("a file");
    let mut builder = lwo::MeshBuilder::new();
    let point = builder.point([0.0; 3]);
    builder.polygon(lwo::Kind::Face, lwo::NO_SURFACE, &[point]);
    let plain = builder
        .build()
        .and_then(|mesh| mesh.to_lwo2())
        .expect("a file");
    fs::write(folder.join("plain.lwo"), plain).expect("a file");
    let mut printed = run(&folder, &["check", "--json", ".", "none.lwo"]).printed;
    printed += &run(&folder, &["boards", "--json", "."]).printed;
    printed += &run(&folder, &["list", "--json", "chest.lwo"]).printed;

    let text = document("docs/JSON.md");
    let rows = text.lines().filter(|line| line.starts_with("| `"));
    let words: BTreeSet<&str> = rows
        .flat_map(|row| row.split('`').skip(1).step_by(2))
        .collect();
    for member in members(&printed) {
        assert!(words.contains(member), "{member} is not told of");
    }
    let firsts = text
        .lines()
        .filter_map(|line| line.strip_prefix("| `")?.split(" | ").next());
    for member in
        firsts.flat_map(|cell| cell.split(['`', ',', ' ']).filter(|word| !word.is_empty()))
    {
        assert!(
            members(&printed).contains(member),
            "{member} is never printed"
        );
    }
}

#[test]
fn the_readme_shows_what_the_command_prints() {
    let shown = shown_in(&section("For the shop"));
    assert!(shown.len() > 6);
    must_print(&folder_of_samples("readme"), shown);
}

#[test]
fn the_samples_are_told_as_the_command_prints_them() {
    let shown = shown_in(&document("samples/README.md"));
    assert_eq!(shown.len(), 3);
    must_print(&folder_of_samples("samples-readme"), shown);
}

/// Between the lines, too, a refusal that is shown is one that a sample has, and so is what was
/// found.
#[test]
fn examples_of_refusals_are_those_of_samples() {
    let printed = run(&folder_of_samples("examples"), &["check", "."]).printed;
    let help = run(&samples(), &["--help"]).printed;
    for (text, quotation_mark) in [
        (document("README.md"), '`'),
        (document("docs/REFUSALS.md"), '`'),
        (help, '\''),
    ] {
        let quoted = text.split(quotation_mark).skip(1);
        let examples: Vec<&str> = quoted
            .filter(|text| text.starts_with("refused ") || text.starts_with("found "))
            .collect();
        assert!(!examples.is_empty());
        for example in examples {
            assert!(printed.contains(example), "{example}");
        }
    }
}
