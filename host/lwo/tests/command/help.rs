//! Running the command, and files to run it on.

use std::collections::BTreeMap;
use std::ffi::OsStr;
use std::fs;
use std::io::Write;
use std::path::{Path, PathBuf};
use std::process::{Command, Output, Stdio};
use std::sync::Mutex;

/// How a run ended: exit status, standard output, standard error.
#[derive(Debug, PartialEq, Eq)]
pub struct Run {
    pub status: Option<i32>,
    pub printed: String,
    pub told: String,
}

impl Run {
    pub fn new(status: i32, printed: &str, told: &str) -> Run {
        Run {
            status: Some(status),
            printed: printed.to_owned(),
            told: told.to_owned(),
        }
    }
}

impl From<Output> for Run {
    fn from(output: Output) -> Run {
        Run {
            status: output.status.code(),
            printed: String::from_utf8_lossy(&output.stdout).into_owned(),
            told: String::from_utf8_lossy(&output.stderr).into_owned(),
        }
    }
}

/// The command in a folder, with nothing on standard input.
pub fn lwo<W: AsRef<OsStr>>(folder: &Path, words: &[W]) -> Command {
    let mut command = Command::new(env!("CARGO_BIN_EXE_lwo"));
    command.current_dir(folder).args(words).stdin(Stdio::null());
    command
}

pub fn run<W: AsRef<OsStr>>(folder: &Path, words: &[W]) -> Run {
    Run::from(lwo(folder, words).output().expect("the command starts"))
}

/// Runs the command with these bytes on standard input.
pub fn run_with_input(folder: &Path, words: &[&str], input: &[u8]) -> Output {
    let mut child = lwo(folder, words)
        .stdin(Stdio::piped())
        .stdout(Stdio::piped())
        .stderr(Stdio::piped())
        .spawn()
        .expect("the command starts");
    let mut pipe = child.stdin.take().expect("a pipe");
    pipe.write_all(input).expect("the command reads");
    drop(pipe);
    child.wait_with_output().expect("the command ends")
}

pub fn samples() -> PathBuf {
    Path::new(env!("CARGO_MANIFEST_DIR")).join("../../samples")
}

pub fn sample(name: &str) -> Vec<u8> {
    fs::read(samples().join(name)).expect(name)
}

/// A new folder with a copy of these samples.
pub fn folder_with(name: &str, files: &[&str]) -> PathBuf {
    let folder = Path::new(env!("CARGO_TARGET_TMPDIR"))
        .join("command")
        .join(name);
    if folder.exists() {
        fs::remove_dir_all(&folder).expect("an old folder goes");
    }
    fs::create_dir_all(&folder).expect("a new folder");
    for file in files {
        fs::write(folder.join(file), sample(file)).expect(file);
    }
    folder
}

/// A C program or library for these tests, compiled once: another test may be running it.
pub fn compiled(source: &'static str, flags: &[&str]) -> PathBuf {
    static COMPILED: Mutex<BTreeMap<&str, PathBuf>> = Mutex::new(BTreeMap::new());
    let mut compiled = COMPILED.lock().expect("no compilation failed");
    let built = || {
        let sources = Path::new(env!("CARGO_MANIFEST_DIR")).join("tests/command");
        let built = Path::new(env!("CARGO_TARGET_TMPDIR")).join(format!("{source}.built"));
        let status = Command::new("gcc")
            .args(["-std=c99", "-Wall", "-Wextra", "-Werror"])
            .args(flags)
            .arg(sources.join(source))
            .arg("-o")
            .arg(&built)
            .status();
        assert!(status.expect("gcc starts").success(), "{source}");
        built
    };
    compiled.entry(source).or_insert_with(built).clone()
}

/// The names of everything in a folder, in order.
pub fn names_in(folder: &Path) -> Vec<String> {
    let entries = fs::read_dir(folder).expect("a folder");
    let mut names: Vec<String> = entries
        .map(|entry| {
            entry
                .expect("an entry")
                .file_name()
                .to_string_lossy()
                .into_owned()
        })
        .collect();
    names.sort();
    names
}
