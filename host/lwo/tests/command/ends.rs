//! Help, words that are not understood, and standard output that cannot be written.

use std::fs::OpenOptions;
use std::io;
use std::process::Command;

use crate::help::{lwo, run, samples, Run};

#[test]
fn help_tells_of_every_command() {
    let help = run(&samples(), &["--help"]);
    assert_eq!((help.status, help.told.as_str()), (Some(0), ""));
    for words in [
        "lwo list FILE",
        "lwo boards FILE",
        "--json",
        "lwo check FILE",
        "lwo canonical IN OUT",
        "--force",
        ".lwo-NUMBER-NUMBER.tmp",
        "Exit status: 0",
        "141",
    ] {
        assert!(help.printed.contains(words), "{words}");
    }
    assert!(help.printed.lines().all(|line| line.len() <= 80));
    assert_eq!(run(&samples(), &["canonical", "-h"]), help);
}

#[test]
fn the_version_is_printed() {
    let version = format!("lwo {}\n", env!("CARGO_PKG_VERSION"));
    assert_eq!(run(&samples(), &["--version"]), Run::new(0, &version, ""));
}

#[test]
fn words_that_are_not_understood_are_told() {
    let cases: [(&[&str], &str); 8] = [
        (&[], "no command is given"),
        (&["open", "oak.lwo"], "there is no command 'open'"),
        (&["list", "--all", "oak.lwo"], "there is no option '--all'"),
        (&["check"], "check needs the name of a file"),
        (
            &["canonical", "oak.lwo"],
            "canonical needs two files, IN and OUT",
        ),
        (&["list", "-", "-"], "standard input (-) is given twice"),
        (&["check", "-f", "a"], "check has no option '--force'"),
        (&["o\u{202e}", "a"], r"there is no command 'o\u{202e}'"),
    ];
    for (words, why) in cases {
        let told = format!("lwo: {why}; lwo --help tells how it is used\n");
        assert_eq!(run(&samples(), words), Run::new(2, "", &told));
    }
}

#[test]
fn a_closed_pipe_ends_the_command_quietly() {
    for words in [
        &["list", "oak.lwo"][..],
        &["--help"],
        &["canonical", "oak.lwo", "-"],
    ] {
        let (reader, writer) = io::pipe().expect("a pipe");
        drop(reader);
        let output = lwo(&samples(), words).stdout(writer).output();
        let done = Run::from(output.expect("the command starts"));
        assert_eq!(done, Run::new(141, "", ""), "{words:?}");
    }
}

/// Closed by the shell, and open for reading only: the standard library would take every byte for
/// written.
#[test]
fn a_closed_standard_output_is_told() {
    let told = "lwo: standard output: not written: it is closed, or not open for this\n";
    for redirection in [">&-", "1</dev/null"] {
        for words in [
            "check oak.lwo",
            "list oak.lwo",
            "canonical oak.lwo -",
            "--help",
        ] {
            let script = format!("exec \"$0\" {words} {redirection}");
            let output = Command::new("sh")
                .args(["-c", &script, env!("CARGO_BIN_EXE_lwo")])
                .current_dir(samples())
                .output();
            let done = Run::from(output.expect("the shell starts"));
            assert_eq!(done, Run::new(1, "", told), "{script}");
        }
    }
}

#[test]
fn a_closed_standard_input_is_told() {
    let told = "standard input: not read: it is closed, or not open for this\n";
    for redirection in ["<&-", "0>/dev/null"] {
        let script = format!("exec \"$0\" check - {redirection}");
        let output = Command::new("sh")
            .args(["-c", &script, env!("CARGO_BIN_EXE_lwo")])
            .current_dir(samples())
            .output();
        let done = Run::from(output.expect("the shell starts"));
        assert_eq!(done, Run::new(1, told, ""), "{script}");
    }
}

/// A person who throws the output away on purpose is not told that it is lost.
#[test]
fn an_output_that_is_thrown_away_is_fine() {
    for null in [
        OpenOptions::new().write(true).open("/dev/null"),
        OpenOptions::new().read(true).write(true).open("/dev/null"),
    ] {
        let null = null.expect("a device that takes everything");
        let output = lwo(&samples(), &["check", "oak.lwo"]).stdout(null).output();
        let done = Run::from(output.expect("the command starts"));
        assert_eq!(done, Run::new(0, "", ""));
    }
}

#[test]
fn a_full_standard_output_is_told() {
    for words in [&["check", "oak.lwo"][..], &["canonical", "oak.lwo", "-"]] {
        let full = OpenOptions::new().write(true).open("/dev/full");
        let full = full.expect("a device that is always full");
        let output = lwo(&samples(), words).stdout(full).output();
        let done = Run::from(output.expect("the command starts"));
        let told = "lwo: standard output: not written: there is no space left\n";
        assert_eq!(done, Run::new(1, "", told), "{words:?}");
    }
}
