//! Folders in the place of files, for `check` and `boards`.

use std::fs;
use std::os::unix::fs::symlink;

use crate::help::{folder_with, run, sample, Run};

/// Files of both spellings, in folders within folders; others, hidden ones and links that lead in
/// a circle are passed over, and a link to nothing is told.
#[test]
fn object_files_are_found_in_their_order() {
    let folder = folder_with("walk", &["panel.lwo"]);
    fs::create_dir_all(folder.join("b/deep")).expect("folders");
    fs::create_dir_all(folder.join(".hidden")).expect("a folder");
    for name in [
        "b/deep/OAK.LWO",
        "a.lwo",
        ".hidden/oak.lwo",
        "._a.lwo",
        "notes.txt",
        "lwo",
    ] {
        fs::write(folder.join(name), sample("oak.lwo")).expect("a file");
    }
    symlink("..", folder.join("b/circle")).expect("a link");
    symlink("../..", folder.join("b/circle.lwo")).expect("a link");
    symlink("../panel.lwo", folder.join("b/link.lwo")).expect("a link");
    symlink("nothing", folder.join("b/none.lwo")).expect("a link");
    let printed = "\
./a.lwo: accepted, 3 points, 1 polygon, 1 name
./b/deep/OAK.LWO: accepted, 3 points, 1 polygon, 1 name
./b/link.lwo: accepted, 7 points, 3 polygons, 3 names, 1 detail not kept
./b/none.lwo: not read: there is no such file
./panel.lwo: accepted, 7 points, 3 polygons, 3 names, 1 detail not kept
a.lwo: accepted, 3 points, 1 polygon, 1 name
";
    assert_eq!(
        run(&folder, &["check", ".", "a.lwo"]),
        Run::new(1, printed, "")
    );
    let boards = run(&folder, &["boards", "."]);
    assert!(
        boards
            .printed
            .contains("total of 5 files, 1 of them not counted:\n"),
        "{boards:?}"
    );
}

#[test]
fn a_folder_without_object_files_is_told() {
    let folder = folder_with("nothing-in-it", &[]);
    fs::create_dir(folder.join("empty")).expect("a folder");
    fs::write(folder.join("notes.txt"), "none").expect("a file");
    let printed = ".: not read: there is no .lwo file in this folder\n";
    for command in ["check", "boards"] {
        assert_eq!(run(&folder, &[command, "."]), Run::new(1, printed, ""));
    }
}
