//! Links the proved library. `host/library` builds it where it is not there, or where the proved sources
//! are not those that it was built from; cargo runs this again when one of them changes.

use std::fs::{self, OpenOptions};
use std::io::{BufRead, BufReader, Read, Write};
use std::path::{Path, PathBuf};
use std::process::{exit, Command, Stdio};

fn main() {
    let folder = |variable| PathBuf::from(std::env::var_os(variable).expect("cargo names it"));
    let script = folder("CARGO_MANIFEST_DIR").join("../library");
    let sources = printed_by(Command::new(&script).arg("--sources"));
    let library = printed_by(&mut Command::new(&script));

    // A copy, so that a library that another program builds meanwhile is not linked in part.
    let linked = folder("OUT_DIR").join("liblwo.a");
    fs::copy(library.trim_end(), &linked).expect("the library is copied");
    println!("cargo:rerun-if-env-changed=LWO_LIBRARY");
    println!("cargo:rerun-if-changed={}", script.display());
    sources
        .lines()
        .for_each(|source| println!("cargo:rerun-if-changed={source}"));
    if std::env::var_os("LWO_LIBRARY").is_some() {
        println!("cargo:rerun-if-changed={}", library.trim_end());
    }
    println!(
        "cargo:rustc-link-search=native={}",
        linked.parent().expect("a folder").display()
    );
    println!("cargo:rustc-link-lib=static=lwo");
    println!("cargo:rustc-env=LWO_LIBRARY_FILE={}", linked.display());
}

/// What a command prints. What it tells meanwhile goes to standard error, which cargo shows where the
/// command fails, and at once to the terminal, if there is one: a proof from nothing takes long.
fn printed_by(command: &mut Command) -> String {
    let mut child = match command
        .stdout(Stdio::piped())
        .stderr(Stdio::piped())
        .spawn()
    {
        Ok(child) => child,
        Err(error) => fail(&format!(
            "{:?} does not start: {error}",
            command.get_program()
        )),
    };
    let mut terminal = OpenOptions::new()
        .write(true)
        .open(Path::new("/dev/tty"))
        .ok();
    let told = BufReader::new(child.stderr.take().expect("a pipe"));
    for line in told.lines().map_while(Result::ok) {
        eprintln!("{line}");
        if let Some(terminal) = &mut terminal {
            let _ = writeln!(terminal, "\r\x1b[Klwo: {line}");
        }
    }
    let mut printed = String::new();
    let read = child
        .stdout
        .take()
        .expect("a pipe")
        .read_to_string(&mut printed);
    match child.wait() {
        Ok(status) if status.success() && read.is_ok() => printed,
        _ => exit(1),
    }
}

fn fail(sentence: &str) -> ! {
    eprintln!("{sentence}");
    exit(1)
}
