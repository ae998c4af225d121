//! `lwo canonical`.

use std::fs::{self, File, OpenOptions};
use std::os::unix::fs::symlink;
use std::path::Path;

use lwo::Mesh;

use crate::help::{folder_with, lwo, names_in, run, run_with_input, sample, Run};

const SAME_FILE: &str = "not written: it is the file that is read";

fn quiet() -> Run {
    Run::new(0, "", "")
}

fn failed(told: &str) -> Run {
    Run::new(1, "", &format!("lwo: {told}\n"))
}

fn read(folder: &Path, name: &str) -> Vec<u8> {
    fs::read(folder.join(name)).expect(name)
}

#[test]
fn the_file_written_is_canonical_and_the_same_mesh() {
    let folder = folder_with("writes", &["panel.lwo"]);
    assert_eq!(
        run(&folder, &["canonical", "panel.lwo", "new.lwo"]),
        quiet()
    );
    let mesh = Mesh::read(&sample("panel.lwo")).expect("it is accepted");
    let new = read(&folder, "new.lwo");
    assert_eq!(Mesh::read(&new), Ok(mesh.clone()));
    assert_eq!(mesh.to_lwo2(), Ok(new));
    assert_eq!(read(&folder, "panel.lwo"), sample("panel.lwo"));
    assert_eq!(names_in(&folder), ["new.lwo", "panel.lwo"]);
}

#[test]
fn standard_input_and_output() {
    let folder = folder_with("standard", &[]);
    let output = run_with_input(&folder, &["canonical", "-", "-"], &sample("oak.lwo"));
    assert_eq!(output.status.code(), Some(0));
    assert_eq!(output.stdout, sample("oak.lwo"));
    assert!(output.stderr.is_empty());
    assert!(names_in(&folder).is_empty());
}

/// By the same name, another path, a hard link and a symbolic link.
#[test]
fn the_input_is_never_written() {
    let folder = folder_with("same-file", &["panel.lwo"]);
    fs::create_dir(folder.join("sub")).expect("a folder");
    fs::hard_link(folder.join("panel.lwo"), folder.join("hard.lwo")).expect("a link");
    symlink("panel.lwo", folder.join("soft.lwo")).expect("a link");
    for out in ["panel.lwo", "sub/../panel.lwo", "hard.lwo", "soft.lwo"] {
        for words in [
            &["canonical", "panel.lwo", out][..],
            &["canonical", "-f", "panel.lwo", out],
        ] {
            assert_eq!(run(&folder, words), failed(&format!("{out}: {SAME_FILE}")));
            assert_eq!(read(&folder, out), sample("panel.lwo"), "{out}");
        }
    }
    let link = fs::symlink_metadata(folder.join("soft.lwo")).expect("a link");
    assert!(link.is_symlink());
    assert_eq!(
        names_in(&folder),
        ["hard.lwo", "panel.lwo", "soft.lwo", "sub"]
    );
}

#[test]
fn the_input_is_known_when_it_is_standard_input_or_output() {
    let folder = folder_with("same-stream", &["panel.lwo"]);
    let path = folder.join("panel.lwo");
    let input = File::open(&path).expect("a file");
    let mut command = lwo(&folder, &["canonical", "-", "panel.lwo"]);
    let output = command.stdin(input).output().expect("the command starts");
    assert_eq!(
        Run::from(output),
        failed(&format!("panel.lwo: {SAME_FILE}"))
    );

    let end = OpenOptions::new().append(true).open(&path).expect("a file");
    let mut command = lwo(&folder, &["canonical", "panel.lwo", "-"]);
    let output = command.stdout(end).output().expect("the command starts");
    assert_eq!(
        Run::from(output),
        failed(&format!("standard output: {SAME_FILE}"))
    );
    assert_eq!(read(&folder, "panel.lwo"), sample("panel.lwo"));
}

#[test]
fn what_is_there_stays_when_the_input_has_no_mesh() {
    let folder = folder_with("keeps", &["damaged.lwo", "oak.lwo"]);
    let refused = "damaged.lwo: refused 9 at 86 (POLS at 68): \
        a polygon names a point that the latest point list does not have; \
        found point 3, expected 0 to 2 (PNTS at 24)";
    let missing = "none.lwo: not read: there is no such file";
    let is_folder = ".: not read: it is a folder";
    for (input, told) in [
        ("damaged.lwo", refused),
        ("none.lwo", missing),
        (".", is_folder),
    ] {
        assert_eq!(
            run(&folder, &["canonical", "-f", input, "oak.lwo"]),
            failed(told)
        );
        assert_eq!(run(&folder, &["canonical", input, "new.lwo"]), failed(told));
        assert_eq!(read(&folder, "oak.lwo"), sample("oak.lwo"), "{input}");
    }
    assert_eq!(names_in(&folder), ["damaged.lwo", "oak.lwo"]);
}
