//! The folder `samples` holds the files that the generator makes, and no other object file.

use std::ffi::OsStr;
use std::fs;
use std::path::{Path, PathBuf};

use cases::samples::samples;

fn folder() -> PathBuf {
    Path::new(env!("CARGO_MANIFEST_DIR")).join("../../samples")
}

#[test]
fn the_files_are_those_that_are_made() {
    for (name, bytes) in samples() {
        let file = fs::read(folder().join(name)).expect(name);
        assert_eq!(file, bytes, "{name}");
    }
}

#[test]
fn there_are_no_others() {
    let mut found = Vec::new();
    for entry in fs::read_dir(folder()).expect("the folder") {
        let path = entry.expect("an entry").path();
        if path.extension() == Some(OsStr::new("lwo")) {
            let name = path.file_name().expect("a name").to_string_lossy();
            found.push(name.into_owned());
        }
    }
    found.sort();
    let made: Vec<&str> = samples().iter().map(|&(name, _)| name).collect();
    assert_eq!(found, made);
}
