//! The example lines that show how the documents are read, one file a line:
//! `LEVEL  FILE IN HEX -> answer   (other: the reading not taken)`.
//!
//! The lines of levels `base` and `103` are without request #101: they have 6
//! where an item is cut or a string is open, and the chunk's place. Those of
//! levels `101` and `101,103` have the numbers and places that are told. Those
//! of level `all` do too, where they are about request #107 or #111; the others
//! of them belong to requests that are still to come.

use second::{rules, Mesh, Record};

use crate::help::{hex, mesh_of, verdict};

const LINES: &str = include_str!("../readings.txt");

struct Example {
    level: &'static str,
    file: Vec<u8>,
    answer: &'static str,
    other: &'static str,
}

fn examples() -> Vec<Example> {
    LINES.lines().map(example).collect()
}

fn example(line: &'static str) -> Example {
    let (level, rest) = line.split_once("  ").expect("a level");
    let (file, rest) = rest.split_once(" -> ").expect("an arrow");
    let (answer, other) = rest.split_once("   (other: ").expect("the other reading");
    Example {
        level,
        file: hex(file),
        answer,
        other: other.strip_suffix(')').expect("a closing bracket"),
    }
}

/// Line 27 and line 29 are told apart by their records only.
fn differs_in_records_only(example: &Example) -> bool {
    example.other.starts_with("same answer, ")
}

/// What is said of a file without request #101: 6 where 19 and 20 stand now,
/// and "the offset of the top-level chunk's tag".
fn verdict_without_101(file: &[u8]) -> String {
    match rules(file) {
        Ok(_) => String::from("accepted"),
        Err(refusal) => {
            let number = match refusal.number() {
                19 | 20 => 6,
                other => other,
            };
            format!("refused {number} at {}", refusal.chunk)
        }
    }
}

/// Every line of a level has its answer and not that of the other reading.
/// Says how many there are.
fn check_level(level: &str, verdict: fn(&[u8]) -> String) -> usize {
    let ran = check_lines(|example| example.level == level, verdict);
    let start = format!("{level} ");
    let listed = LINES.lines().filter(|line| line.starts_with(&start));
    assert_eq!(ran, listed.count());
    ran
}

/// The same of the lines of which this holds.
fn check_lines(holds: impl Fn(&Example) -> bool, verdict: fn(&[u8]) -> String) -> usize {
    let mut ran = 0;
    for example in examples() {
        if !holds(&example) {
            continue;
        }
        let told = verdict(&example.file);
        assert_eq!(told, example.answer, "line {:02x?}", example.file);
        if !differs_in_records_only(&example) {
            assert_ne!(told, example.other, "line {:02x?}", example.file);
        }
        ran += 1;
    }
    ran
}

#[test]
fn every_base_line() {
    assert_eq!(check_level("base", verdict_without_101), 49);
}

#[test]
fn every_line_of_101() {
    assert_eq!(check_level("101", verdict), 20);
}

/// With request #101, and without it.
#[test]
fn every_line_of_103() {
    assert_eq!(check_level("101,103", verdict), 4);
    assert_eq!(check_level("103", verdict_without_101), 1);
}

/// The requests that the two readings of a line of level `all` are about: #107
/// where an index is in the long form, #111 where a PTAG has its type, #114
/// where one of them is its number.
fn requests(example: &Example) -> Vec<u32> {
    let holds = |bytes: &[u8]| example.file.windows(bytes.len()).any(|some| some == bytes);
    let said = |start: &str| example.answer.starts_with(start) || example.other.starts_with(start);
    let signs = [
        (107, holds(&[0xff, 0x00])),
        (111, holds(b"PART")),
        (114, said("refused 26 ")),
    ];
    let met = signs.into_iter().filter(|&(_, met)| met);
    met.map(|(request, _)| request).collect()
}

/// The lines of level `all` that are about a request that has come.
#[test]
fn every_line_of_107_and_111() {
    for (request, lines) in [(107, 4), (111, 1)] {
        let of = |example: &Example| example.level == "all" && requests(example) == [request];
        assert_eq!(check_lines(of, verdict), lines, "{request}");
    }
}

/// Each line of level `all` is about one request, so that none is left out
/// unseen.
#[test]
fn the_other_lines_of_all_belong_to_later_requests() {
    let lines = examples();
    let all = lines.iter().filter(|example| example.level == "all");
    let found: Vec<Vec<u32>> = all.map(requests).collect();
    let times = |request| found.iter().filter(|one| **one == [request]).count();
    assert_eq!([107, 111, 114].map(times), [4, 1, 5]);
    assert_eq!(found.len(), 4 + 1 + 5);
}

#[test]
fn every_line_has_a_known_level() {
    let levels = ["base", "all", "101", "103", "101,103"];
    let lines = examples();
    assert_eq!(lines.len(), 84);
    for example in lines {
        assert!(levels.contains(&example.level), "{}", example.level);
    }
}

fn only_record(mesh: &Mesh) -> Record {
    assert_eq!(mesh.records.len(), 1);
    mesh.records[0]
}

/// The last FLAG's value replaces the whole earlier one: bit 8 of the first is
/// gone, bit 0 of the second gives luminosity 1.0.
#[test]
fn a_repeated_flag_is_replaced_whole() {
    let file = hex("464f524d000000284c574f42 5352465300000002 6100
         5355524600000012 6100 464c414700020100 464c414700020001");
    let record = only_record(&mesh_of(&file));
    assert_eq!(record.defined, 1);
    assert_eq!(record.sides, 1);
    assert_eq!(record.luminosity, 0x3f80_0000);
    assert_eq!(record.diffuse, 0);
}

/// The last VLUM wins over every LUMI, wherever they stand.
#[test]
fn the_last_long_form_wins() {
    let file = hex("464f524d0000003c4c574f42 5352465300000002 6100
         5355524600000026 6100 564c554d0004 3e800000 564c554d0004 3f000000
         4c554d490002 0100 464c41470002 0001");
    let record = only_record(&mesh_of(&file));
    assert_eq!(record.luminosity, 0x3f00_0000);
    assert_eq!(record.sides, 1);
}

/// In LWOB a SURF without DIFF or VDIF has diffuse 0, a name with no SURF has
/// diffuse 1.0. The missing colour is 1.0, 1.0, 1.0 for both.
#[test]
fn missing_values_of_lwob() {
    let with_surf = hex("464f524d000000184c574f425352465300000002610053555246000000026100");
    let record = only_record(&mesh_of(&with_surf));
    assert_eq!(record.defined, 1);
    assert_eq!(record.diffuse, 0);
    assert_eq!(record.colour, [0x3f80_0000; 3]);

    let without = hex("464f524d0000000e4c574f4253524653000000026100");
    let record = only_record(&mesh_of(&without));
    assert_eq!(record.defined, 0);
    assert_eq!(record.diffuse, 0x3f80_0000);
    assert_eq!(record.colour, [0x3f80_0000; 3]);
    assert_eq!(record.sides, 1);
}
