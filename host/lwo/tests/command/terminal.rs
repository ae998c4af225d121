//! What is different where a person looks on: standard output and standard error are a terminal.

use std::path::Path;
use std::process::{Command, Stdio};

use crate::help::{compiled, folder_with, samples};

/// What the terminal shows, line ends made plain, and the exit status.
fn on_terminal(words: &[&str]) -> (String, Option<i32>) {
    on_terminal_in(&samples(), words)
}

fn on_terminal_in(folder: &Path, words: &[&str]) -> (String, Option<i32>) {
    let output = Command::new(compiled("terminal.c", &[]))
        .arg(env!("CARGO_BIN_EXE_lwo"))
        .args(words)
        .current_dir(folder)
        .stdin(Stdio::null())
        .output()
        .expect("the terminal starts");
    let shown = String::from_utf8_lossy(&output.stdout).replace("\r\n", "\n");
    (shown, output.status.code())
}

#[test]
fn a_binary_file_is_not_written_to_a_terminal() {
    let told = "lwo: standard output: not written: it is a terminal; --force writes to it\n";
    let shown = on_terminal(&["canonical", "oak.lwo", "-"]);
    assert_eq!(shown, (told.to_owned(), Some(1)));
    let (shown, status) = on_terminal(&["canonical", "--force", "oak.lwo", "-"]);
    assert_eq!(status, Some(0));
    assert!(shown.starts_with("FORM"), "{shown:?}");
}

#[test]
fn text_is_printed_to_a_terminal() {
    let (shown, status) = on_terminal(&["check", "oak.lwo"]);
    assert_eq!(shown, "oak.lwo: accepted, 3 points, 1 polygon, 1 name\n");
    assert_eq!(status, Some(0));
}

/// One file alone: nobody has to wonder whether the command is still at work.
#[test]
fn a_file_that_takes_long_is_shown_with_its_time() {
    let folder = folder_with("slow", &["oak.lwo"]);
    let script = "mkfifo pipe; (sleep 2.5; cat oak.lwo) > pipe &";
    let begun = Command::new("sh")
        .args(["-c", script])
        .current_dir(&folder)
        .status();
    assert!(begun.expect("the shell starts").success());
    let (shown, status) = on_terminal_in(&folder, &["check", "pipe"]);
    assert!(
        shown.starts_with("\r\x1b[Kreading pipe, ") && shown.contains(" s\r\x1b[K"),
        "{shown:?}"
    );
    assert!(
        shown.ends_with("\r\x1b[Kpipe: accepted, 3 points, 1 polygon, 1 name\n"),
        "{shown:?}"
    );
    assert_eq!(status, Some(0));
}

#[test]
fn several_files_are_counted() {
    let (shown, status) = on_terminal(&["check", "oak.lwo", "panel.lwo"]);
    for line in ["reading file 1 of 2", "reading file 2 of 2"] {
        assert!(
            shown.contains(&format!("\r\x1b[K{line}\r\x1b[K")),
            "{shown:?}"
        );
    }
    assert_eq!(status, Some(0));
}
