//! `lwo check`.

use std::ffi::OsStr;
use std::fs;
use std::os::unix::ffi::OsStrExt;
use std::process::Command;

use cases::assemble::{chunk, form, join, Kind};

use crate::help::{folder_with, run, run_with_input, sample, samples, Run};

#[test]
fn accepted_files_have_one_line_each() {
    let checked = run(
        &samples(),
        &["check", "oak.lwo", "rosette.lwo", "chest.lwo"],
    );
    let printed = "\
oak.lwo: accepted, 3 points, 1 polygon, 1 name
rosette.lwo: accepted, 8 points, 6 polygons, 2 names, 1 chunk skipped, 2 details not kept
chest.lwo: accepted, 12 points, 7 polygons, 3 names
";
    assert_eq!(checked, Run::new(0, printed, ""));
}

#[test]
fn skipped_chunks_are_named_when_asked_for() {
    let checked = run(&samples(), &["check", "-v", "oak.lwo", "rosette.lwo"]);
    let printed = "\
oak.lwo: accepted, 3 points, 1 polygon, 1 name
rosette.lwo: accepted, 8 points, 6 polygons, 2 names, 1 chunk skipped (1 CRVS), 2 details not kept
";
    assert_eq!(checked, Run::new(0, printed, ""));
}

/// A layer is read in LWO2, and one of the skipped chunks in LWOB, whatever it holds there.
#[test]
fn layers_are_skipped_in_lwob_alone() {
    let layer = join(&[&[0; 16][..], b"Lid\0"]);
    for (kind, body, skipped) in [
        (Kind::Lwo2, &layer[..], ""),
        (Kind::Lwob, &layer, ", 1 chunk skipped (1 LAYR)"),
        (Kind::Lwob, b"odd", ", 1 chunk skipped (1 LAYR)"),
    ] {
        let file = form(kind, &chunk(b"LAYR", body));
        let checked = run_with_input(&samples(), &["check", "-v", "-"], &file);
        let printed = format!("standard input: accepted, 0 points, 0 polygons, 0 names{skipped}\n");
        assert_eq!(Run::from(checked), Run::new(0, &printed, ""));
    }
}

#[test]
fn a_line_of_json_for_each_file() {
    let words = [
        "check",
        "--json",
        "rosette.lwo",
        "damaged.lwo",
        "no\"ne.lwo",
        "-",
    ];
    let printed = "{\"file\":\"rosette.lwo\",\"accepted\":true,\"points\":8,\"polygons\":6,\
\"vertices\":24,\"names\":2,\"name_bytes\":13,\"skipped\":1,\"details\":2,\
\"skipped_tags\":{\"CRVS\":1}}
{\"file\":\"damaged.lwo\",\"accepted\":false,\"refused\":{\"number\":9,\"place\":86,\
\"chunk\":68,\"tag\":\"POLS\",\
\"meaning\":\"a polygon names a point that the latest point list does not have\",\
\"found\":\"point 3\",\"expected\":\"0 to 2 (PNTS at 24)\"}}
{\"file\":\"no\\\"ne.lwo\",\"accepted\":false,\"not_read\":\"there is no such file\"}
{\"file\":\"-\",\"accepted\":false,\"refused\":{\"number\":2,\"place\":0,\
\"meaning\":\"this is not a LightWave object file of the kinds LWOB and LWO2\",\
\"found\":\"an empty file\",\"expected\":\"12 bytes or more\"}}
";
    assert_eq!(run(&samples(), &words), Run::new(1, printed, ""));
}

#[test]
fn a_file_name_that_is_no_text_has_its_bytes_in_json() {
    let folder = folder_with("name-bytes", &[]);
    let name = OsStr::from_bytes(b"Silm\xe4.lwo");
    fs::write(folder.join(name), sample("oak.lwo")).expect("a file");
    let checked = run(&folder, &[OsStr::new("check"), OsStr::new("--json"), name]);
    let begin = "{\"file\":\"Silm\u{fffd}.lwo\",\"file_hex\":\"53696c6de42e6c776f\",";
    assert!(checked.printed.starts_with(begin), "{checked:?}");
}

#[test]
fn one_refused_file_among_others_is_told() {
    let checked = run(&samples(), &["check", "damaged.lwo", "oak.lwo"]);
    let printed = "\
damaged.lwo: refused 9 at 86 (POLS at 68): a polygon names a point that the latest point list does not have; found point 3, expected 0 to 2 (PNTS at 24)
oak.lwo: accepted, 3 points, 1 polygon, 1 name
";
    assert_eq!(checked, Run::new(1, printed, ""));
}

/// The item at fault is missing: its place is where the next sub-chunk begins, and the chunk is
/// still the one before.
#[test]
fn a_sub_chunk_is_told_with_the_chunk_that_holds_it() {
    let printed = "\
saddle.lwo: refused 19 at 218 (DIFF at 208 of SURF at 170): a number or type is cut by the end of \
its chunk, or missing; found nothing before the end of DIFF, expected an envelope's index of 2 or \
4 bytes
";
    assert_eq!(
        run(&samples(), &["check", "saddle.lwo"]),
        Run::new(1, printed, "")
    );
    let printed = "{\"file\":\"saddle.lwo\",\"accepted\":false,\"refused\":{\"number\":19,\
\"place\":218,\"chunk\":170,\"tag\":\"SURF\",\"sub_chunk\":208,\"sub_tag\":\"DIFF\",\
\"meaning\":\"a number or type is cut by the end of its chunk, or missing\",\
\"found\":\"nothing before the end of DIFF\",\
\"expected\":\"an envelope's index of 2 or 4 bytes\"}}
";
    assert_eq!(
        run(&samples(), &["check", "--json", "saddle.lwo"]),
        Run::new(1, printed, "")
    );
}

/// The face of the second layer has no points there, and does not borrow those of the first.
#[test]
fn a_layer_without_points_is_told() {
    let meaning = "something that must come before this chunk is missing, \
        or a chunk that may come only once comes twice";
    let found = "no PNTS before it in its layer (LAYR at 198)";
    let printed = format!(
        "stall.lwo: refused 5 at 230 (POLS at 230): {meaning}; found {found}, expected one\n"
    );
    let checked = run(&samples(), &["check", "stall.lwo"]);
    assert_eq!(checked, Run::new(1, &printed, ""));
    let printed = format!(
        "{{\"file\":\"stall.lwo\",\"accepted\":false,\"refused\":{{\"number\":5,\"place\":230,\
         \"chunk\":230,\"tag\":\"POLS\",\"meaning\":\"{meaning}\",\
         \"found\":\"{found}\",\"expected\":\"one\"}}}}\n"
    );
    let checked = run(&samples(), &["check", "--json", "stall.lwo"]);
    assert_eq!(checked, Run::new(1, &printed, ""));
}

/// Every index of the file has four bytes, and the first of them is told.
#[test]
fn a_small_index_in_four_bytes_is_told() {
    let meaning = "an index below 65,280 is written in four bytes instead of two";
    let printed = format!(
        "shield.lwo: refused 22 at 116 (POLS at 102): {meaning}; \
         found point 0 in four bytes, expected two\n"
    );
    let checked = run(&samples(), &["check", "shield.lwo"]);
    assert_eq!(checked, Run::new(1, &printed, ""));
    let printed = format!(
        "{{\"file\":\"shield.lwo\",\"accepted\":false,\"refused\":{{\"number\":22,\"place\":116,\
         \"chunk\":102,\"tag\":\"POLS\",\"meaning\":\"{meaning}\",\
         \"found\":\"point 0 in four bytes\",\"expected\":\"two\"}}}}\n"
    );
    let checked = run(&samples(), &["check", "--json", "shield.lwo"]);
    assert_eq!(checked, Run::new(1, &printed, ""));
}

/// What a file holds cannot end the line, move the cursor or hide a part of it.
#[test]
fn what_was_found_stays_on_its_line() {
    let file = b"FORM\0\0\0\x16LWO2TAGS\0\0\0\x0aOak\0a\n\x1b[2J";
    let checked = run_with_input(&samples(), &["check", "-"], file);
    let printed = "standard input: refused 20 at 24 (TAGS at 12): a name or other string has no \
        zero byte at its end, or not the second one that makes it even; \
        found \"a\\n\\u{1b}[2J\" up to the end of TAGS, expected a zero byte behind it\n";
    assert_eq!(Run::from(checked), Run::new(1, printed, ""));
}

#[test]
fn what_cannot_be_read_is_told() {
    let folder = folder_with("not-read", &["oak.lwo"]);
    let checked = run(
        &folder,
        &["check", "none.lwo", "", "oak.lwo/", "oak.lwo/none.lwo"],
    );
    let printed = "\
none.lwo: not read: there is no such file
'': not read: its name is empty
oak.lwo/: not read: a part of its name is a file and no folder
oak.lwo/none.lwo: not read: a part of its name is a file and no folder
";
    assert_eq!(checked, Run::new(1, printed, ""));
}

#[test]
fn standard_input_is_checked() {
    let checked = run_with_input(&samples(), &["check", "-"], &sample("oak.lwo"));
    let printed = "standard input: accepted, 3 points, 1 polygon, 1 name\n";
    assert_eq!(Run::from(checked), Run::new(0, printed, ""));
}

#[test]
fn an_empty_file_is_no_object() {
    let checked = run(&samples(), &["check", "-"]);
    let printed = "standard input: refused 2 at 0: \
        this is not a LightWave object file of the kinds LWOB and LWO2; \
        found an empty file, expected 12 bytes or more\n";
    assert_eq!(checked, Run::new(1, printed, ""));
}

/// The source has no end, so the command must stop by itself.
#[test]
fn reading_stops_past_the_limit() {
    let checked = run(&samples(), &["check", "/dev/zero"]);
    let printed = "/dev/zero: refused 1 at 0: the file is longer than 16,777,216 bytes\n";
    assert_eq!(checked, Run::new(1, printed, ""));
}

/// A pipe that nobody writes to is given up; one with a slow writer is read to its end.
#[test]
fn a_named_pipe_is_read_where_somebody_writes() {
    let folder = folder_with("pipe", &["panel.lwo"]);
    let made = Command::new("mkfifo").arg(folder.join("pipe")).status();
    assert!(made.expect("mkfifo starts").success());
    let printed = "pipe: not read: it is a pipe that nobody writes to\n";
    assert_eq!(run(&folder, &["check", "pipe"]), Run::new(1, printed, ""));

    let slowly = "sleep 0.3; (head -c 100 panel.lwo; sleep 0.3; tail -c +101 panel.lwo) > pipe";
    let mut writer = Command::new("sh")
        .args(["-c", slowly])
        .current_dir(&folder)
        .spawn()
        .expect("the shell starts");
    let printed = "pipe: accepted, 7 points, 3 polygons, 3 names, 1 detail not kept\n";
    assert_eq!(run(&folder, &["check", "pipe"]), Run::new(0, printed, ""));
    assert!(writer.wait().expect("the writer ends").success());
}

/// Names that end a line, turn the text around, hide a letter, or are no text at all; and one that
/// has the backslash which stands for those.
#[test]
fn no_two_names_look_alike() {
    let folder = folder_with("names", &[]);
    let names: [(&[u8], &str); 5] = [
        (b"a\nb.lwo", r"a\nb.lwo"),
        (br"a\nb.lwo", r"a\\nb.lwo"),
        ("a\u{202e}b.lwo".as_bytes(), r"a\u{202e}b.lwo"),
        ("a\u{200b}b.lwo".as_bytes(), r"a\u{200b}b.lwo"),
        (b"a\xe4b.lwo", r"a\xe4b.lwo"),
    ];
    for (name, shown) in names {
        let name = OsStr::from_bytes(name);
        fs::write(folder.join(name), sample("oak.lwo")).expect("a file");
        let checked = run(&folder, &[OsStr::new("check"), name]);
        let printed = format!("{shown}: accepted, 3 points, 1 polygon, 1 name\n");
        assert_eq!(checked, Run::new(0, &printed, ""));
    }
}
