//! The program that writes the files.

use std::fs;
use std::path::{Path, PathBuf};
use std::process::Command;

fn folder(name: &str) -> PathBuf {
    let folder = Path::new(env!("CARGO_TARGET_TMPDIR")).join(name);
    if folder.exists() {
        fs::remove_dir_all(&folder).expect("an old folder goes");
    }
    folder
}

fn run(folder: &Path, seed: &str, count: &str) -> bool {
    let status = Command::new(env!("CARGO_BIN_EXE_cases"))
        .arg(folder)
        .args(["--seed", seed, "--count", count])
        .status();
    status.expect("the program starts").success()
}

fn contents(folder: &Path) -> Vec<(String, Vec<u8>)> {
    let mut list = Vec::new();
    for entry in fs::read_dir(folder).expect("a folder") {
        let path = entry.expect("an entry").path();
        let name = path.file_name().expect("a name").to_string_lossy();
        list.push((name.into_owned(), fs::read(&path).expect("a file")));
    }
    list.sort();
    list
}

#[test]
fn writes_as_many_files_as_asked() {
    let folder = folder("as-many-as-asked");
    assert!(run(&folder, "7", "90"));
    let files = contents(&folder);
    assert_eq!(files.len(), 90);
    for (name, bytes) in &files {
        assert!(name.ends_with(".lwo"), "{name}");
        assert!(bytes.len() <= 65_536, "{name}");
    }
}

#[test]
fn writes_the_same_files_for_the_same_seed() {
    let (one, other) = (folder("one"), folder("other"));
    assert!(run(&one, "11", "60"));
    assert!(run(&other, "11", "60"));
    assert_eq!(contents(&one), contents(&other));
}

#[test]
fn refuses_what_it_does_not_know() {
    let status = Command::new(env!("CARGO_BIN_EXE_cases"))
        .args(["--seed", "x"])
        .status()
        .expect("the program starts");
    assert_eq!(status.code(), Some(2));
}
