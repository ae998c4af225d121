//! `lwo list`.

use std::fs::{self, File};
use std::io::Write;

use cases::files::files;

use crate::help::{folder_with, lwo, run, run_with_input, sample, samples, Run};

/// What document 01 says that the program prints for case l, with the part of request #111: "The
/// listing adds ` part N` before ` vertices`, in case l ` part 0`."
const CASE_L: &str = "\
accepted
points 3
polygons 1
vertices 3
names 1
name-bytes 3
skipped 0
details 0
polygon 0 kind 1 surface 1 part 0 vertices 0 1 2
";

#[test]
fn case_l_is_listed_as_document_01_has_it() {
    assert_eq!(
        run(&samples(), &["list", "oak.lwo"]),
        Run::new(0, CASE_L, "")
    );
}

/// The names are "Oak", "Pine", "head" and "saddle".
#[test]
fn the_parts_of_a_horse_are_listed() {
    let listed = run(&samples(), &["list", "horse.lwo"]);
    let polygons = "
polygon 2 kind 1 surface 1 part 0 vertices 7 8 1 9
polygon 3 kind 1 surface 2 part 3 vertices 10 2 11 12
polygon 4 kind 1 surface 1 part 3 vertices 12 13 14 15
polygon 5 kind 1 surface 0 part 3 vertices 16 17 18
polygon 6 kind 1 surface 1 part 4 vertices 19 20 21 22
polygon 7 kind 2 surface 2 part 4 vertices 23 24 25 26
";
    assert!(listed.printed.ends_with(polygons), "{listed:?}");
    let polygon = r#"{"kind":1,"surface":0,"part":3,"vertices":[16,17,18]}"#;
    let listed = run(&samples(), &["list", "--json", "horse.lwo"]);
    assert!(listed.printed.contains(polygon), "{listed:?}");
}

#[test]
fn standard_input_is_listed() {
    let output = run_with_input(&samples(), &["list", "-"], &sample("oak.lwo"));
    assert_eq!(Run::from(output), Run::new(0, CASE_L, ""));
}

#[test]
fn a_refused_file_has_one_line() {
    let refused = Run::new(1, "refused 9 at 86\n", "");
    assert_eq!(run(&samples(), &["list", "damaged.lwo"]), refused);
}

#[test]
fn several_files_are_listed_under_their_names() {
    let listed = run(&samples(), &["list", "oak.lwo", "none.lwo", "damaged.lwo"]);
    let printed = format!("oak.lwo:\n{CASE_L}damaged.lwo:\nrefused 9 at 86\n");
    let told = "lwo: none.lwo: not read: there is no such file\n";
    assert_eq!(listed, Run::new(1, &printed, told));
}

#[test]
fn two_files_are_several() {
    let listed = run(&samples(), &["list", "damaged.lwo", "damaged.lwo"]);
    let printed = "damaged.lwo:\nrefused 9 at 86\n".repeat(2);
    assert_eq!(listed, Run::new(1, &printed, ""));
}

#[test]
fn a_listing_as_json() {
    let printed = "{\"file\":\"oak.lwo\",\"accepted\":true,\"points\":3,\"polygons\":1,\
\"vertices\":3,\"names\":1,\"name_bytes\":3,\"skipped\":0,\"details\":0,\
\"polygon_list\":[{\"kind\":1,\"surface\":1,\"part\":0,\"vertices\":[0,1,2]}]}
{\"file\":\"none.lwo\",\"accepted\":false,\"not_read\":\"there is no such file\"}
";
    let listed = run(&samples(), &["list", "--json", "oak.lwo", "none.lwo"]);
    assert_eq!(listed, Run::new(1, printed, ""));
}

/// Only check and boards go through folders: a listing is of one file.
#[test]
fn a_folder_is_not_listed() {
    let told = "lwo: .: not read: it is a folder\n";
    assert_eq!(run(&samples(), &["list", "."]), Run::new(1, "", told));
}

/// Where both go to one file, what is told of a file stands in its place between the listings.
#[test]
fn what_is_told_stands_between_the_listings() {
    let path = folder_with("in-order", &[]).join("both");
    let both = File::create(&path).expect("a file");
    let words = ["list", "damaged.lwo", "none.lwo", "damaged.lwo"];
    let status = lwo(&samples(), &words)
        .stdout(both.try_clone().expect("the same file"))
        .stderr(both)
        .status();
    assert_eq!(status.expect("the command starts").code(), Some(1));
    let listing = "damaged.lwo:\nrefused 9 at 86\n";
    let told = "lwo: none.lwo: not read: there is no such file\n";
    let written = fs::read_to_string(&path).expect("a text");
    assert_eq!(written, format!("{listing}{told}{listing}"));
}

/// Files that fit the tables of document 01's program are listed as it lists them.
#[test]
fn generated_files_are_listed_as_by_the_second_program() {
    let folder = folder_with("generated", &[]);
    let mut words = vec![String::from("list")];
    let mut wanted = String::new();
    for (name, bytes) in files(9).take(240) {
        let listing = second::listing(&bytes);
        if listing != "refused 16 at 0\n" {
            fs::write(folder.join(&name), bytes).expect("a file is written");
            wanted += &format!("{name}:\n{listing}");
            words.push(name);
        }
    }
    assert!(words.len() > 200);
    assert_eq!(run(&folder, &words), Run::new(1, &wanted, ""));
}

/// A file of just the limit, nearly all of it one chunk that is skipped, and one byte more.
#[test]
fn the_longest_file_is_listed() {
    let folder = folder_with("longest", &[]);
    let path = folder.join("long.lwo");
    let mut file = File::create(&path).expect("a file");
    let header = b"FORM\x00\xff\xff\xf8LWO2NOTE\x00\xff\xff\xec";
    file.write_all(header).expect("a header is written");
    file.set_len(16_777_216).expect("a long file");
    let listed = run(&folder, &["list", "long.lwo"]);
    assert_eq!(listed.status, Some(0), "{listed:?}");
    assert!(listed.printed.contains("\nskipped 1\n"), "{listed:?}");

    file.set_len(16_777_217).expect("a longer file");
    let refused = Run::new(1, "refused 1 at 0\n", "");
    assert_eq!(run(&folder, &["list", "long.lwo"]), refused);
}
