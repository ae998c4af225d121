//! The program `differ`: what it prints and how it exits.

use std::process::{Command, Output};

fn differ(words: &[&str]) -> Output {
    Command::new(env!("CARGO_BIN_EXE_differ"))
        .args(words)
        .output()
        .expect("the program runs")
}

#[test]
fn a_run_prints_one_line_of_counts() {
    let output = differ(&["--seed", "3", "--files", "20", "--meshes", "10"]);
    let text = String::from_utf8(output.stdout).expect("plain text");
    assert!(output.status.success(), "{text}");
    assert_eq!(text.lines().count(), 1, "{text}");
    assert!(text.starts_with("seed 3: files "), "{text}");
    for word in ["accepted", "refused", "no room", "meshes", "17:", "18:2"] {
        assert!(text.contains(word), "{word} is not in: {text}");
    }
}

#[test]
fn what_is_not_understood_is_refused() {
    for words in [
        &[][..],
        &["--files", "10"],
        &["--seed"],
        &["--seed", "x"],
        &["--seed", "1", "--what", "2"],
    ] {
        let output = differ(words);
        assert_eq!(output.status.code(), Some(2), "{words:?}");
        assert!(output.stdout.is_empty(), "{words:?}");
        assert!(!output.stderr.is_empty(), "{words:?}");
    }
    assert!(differ(&["--help"]).status.success());
}
