//! Compiling and running C.

use std::path::{Path, PathBuf};
use std::process::Command;

/// The library that the crate is linked with.
pub const LIBRARY: &str = env!("LWO_LIBRARY_FILE");

/// The folder `host`.
pub fn host() -> PathBuf {
    Path::new(env!("CARGO_MANIFEST_DIR")).join("..")
}

/// gcc with every warning an error.
pub fn gcc() -> Command {
    let mut gcc = Command::new("gcc");
    gcc.args(["-Wall", "-Wextra", "-Werror", "-pedantic"]);
    gcc
}

/// gcc with the folder of the header too.
pub fn gcc_with_header() -> Command {
    let mut gcc = gcc();
    gcc.arg("-I").arg(host().join("include"));
    gcc
}

/// The program of this source, linked with the library.
pub fn program(source: &Path) -> PathBuf {
    let name = source.file_stem().expect("a name");
    let program = Path::new(env!("CARGO_TARGET_TMPDIR")).join(name);
    let mut compile = gcc_with_header();
    compile.arg("-std=c99").arg(source).arg(LIBRARY);
    succeed(compile.arg("-o").arg(&program));
    program
}

/// Runs a command that must succeed, and gives what it printed.
pub fn succeed(command: &mut Command) -> String {
    let output = command.output().expect("the command starts");
    let printed = String::from_utf8_lossy(&output.stdout).into_owned();
    let told = String::from_utf8_lossy(&output.stderr);
    assert!(output.status.success(), "{command:?}:\n{printed}{told}");
    printed
}
