//! The stack that a call takes, against what the header says.

use std::fs;
use std::io::Write;
use std::path::{Path, PathBuf};
use std::process::{Command, Stdio};

use cases::boundary;
use cases::files::files;

use crate::compile::program;
use crate::header::defined;

/// Files of every kind: at the bounds, up to the longest, targeted and generated. Those with tens
/// of thousands of names take minutes, and their names are compared in a loop.
fn written_files() -> Vec<PathBuf> {
    let folder = Path::new(env!("CARGO_TARGET_TMPDIR")).join("stack-files");
    fs::create_dir_all(&folder).expect("a folder");
    let bounds = boundary::small().into_iter().chain(boundary::large());
    let bounds = bounds
        .map(|one| one.file)
        .filter(|file| !has_many_names(file));
    let all = bounds.chain(files(6).take(1_200).map(|(_, file)| file));
    let write = |(number, file): (usize, Vec<u8>)| {
        let path = folder.join(format!("{number}.lwo"));
        fs::write(&path, file).expect("a file is written");
        path
    };
    all.enumerate().map(write).collect()
}

fn has_many_names(file: &[u8]) -> bool {
    let lists = file
        .windows(8)
        .filter(|header| header.starts_with(b"TAGS") || header.starts_with(b"SRFS"));
    let mut lengths =
        lists.map(|header| u32::from_be_bytes([header[4], header[5], header[6], header[7]]));
    lengths.any(|length| length > 50_000)
}

/// The program makes every call on a stack of just the bytes that the header states; half of them
/// are the margin.
#[test]
fn no_call_takes_more_stack_than_the_header_says() {
    let source = Path::new(env!("CARGO_MANIFEST_DIR")).join("tests/c/stack.c");
    let mut child = Command::new(program(&source))
        .stdin(Stdio::piped())
        .stdout(Stdio::piped())
        .spawn()
        .expect("it starts");
    let mut names = child.stdin.take().expect("a pipe");
    let paths = written_files();
    for path in &paths {
        writeln!(names, "{}", path.display()).expect("it reads");
    }
    drop(names);
    let output = child.wait_with_output().expect("it ends");
    paths
        .iter()
        .for_each(|path| fs::remove_file(path).expect("a file goes"));
    assert!(output.status.success(), "{output:?}");

    let stated: usize = defined("LWO_STACK_BYTES").parse().expect("a number");
    let printed = String::from_utf8(output.stdout).expect("text");
    print!("{printed}");
    let mut functions = Vec::new();
    for line in printed.lines() {
        let (function, bytes) = line.split_once(' ').expect("two words");
        let bytes: usize = bytes.parse().expect("a number");
        assert!((1..=stated / 2).contains(&bytes), "{line}");
        functions.push(function);
    }
    assert_eq!(functions, ["lwo_read", "lwo_write"]);
}
