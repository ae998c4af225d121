//! The files that are compared, and the tables that they are read into.

use cases::random::Random;
use cases::samples::samples;
use second::{read, rules, Tables};

use crate::case::{list_term, tables_term, Case, Sort};

/// Longer files are left out: the prover takes too long over them. What is
/// bounded by a larger number is a law of the specification's crate.
const MOST_BYTES: usize = 2_200;

/// Files at the bound of the listing program's table of names: each name is
/// compared with every earlier one, and the specification has no such bound.
const MANY_NAMES: &str = "-names-25";

/// Generated files are shorter, so that more of them are computed.
const MOST_GENERATED: usize = 420;

/// Example files, one a line after its level: see `second/tests/readings.txt`.
const READINGS: &str = include_str!("../../second/tests/readings.txt");

/// Every fixed file that is short enough: the targeted files and those at the
/// bounds, the example of every reading, and the samples, these with every room.
pub fn fixed() -> Vec<Case> {
    let mut list = Vec::new();
    let mut random = Random::new(1);
    let files = cases::files::fixed().into_iter();
    let readings = READINGS.lines().enumerate();
    let readings =
        readings.map(|(number, line)| (format!("reading-{}", number + 1), reading(line)));
    for (name, file) in files.chain(readings) {
        if file.len() <= MOST_BYTES && !name.contains(MANY_NAMES) {
            list.push(file_case(&name, &file, random.index(ENOUGH)));
        }
    }
    for (name, file) in samples() {
        for room in 0..ROOMS {
            list.push(file_case(&format!("{name} room {room}"), &file, room));
        }
    }
    list
}

fn reading(line: &str) -> Vec<u8> {
    let (_, rest) = line.split_once("  ").expect("a level");
    let (digits, _) = rest.split_once(" -> ").expect("an arrow");
    let pairs = (0..digits.len()).step_by(2);
    let bytes = pairs.map(|at| u8::from_str_radix(&digits[at..at + 2], 16));
    bytes.collect::<Result<_, _>>().expect("hexadecimal digits")
}

/// So many generated files, valid and mutated, most of them with enough room.
pub fn generated(seed: u64, count: usize) -> Vec<Case> {
    let mut random = Random::new(seed);
    let short = cases::files::generated(seed).filter(|(_, file)| file.len() <= MOST_GENERATED);
    let numbered = short.take(count).enumerate();
    numbered
        .map(|(number, (name, file))| {
            let name = format!("generated-{number}-{name}");
            let room = match random.once_in(3) {
                true => random.index(ROOMS),
                false => random.index(ENOUGH),
            };
            file_case(&name, &file, room)
        })
        .collect()
}

fn file_case(name: &str, file: &[u8], room: usize) -> Case {
    let mut tables = lent_tables(file, room);
    let given = format!("{} {}", list_term(file), tables_term(&tables));
    let answer = read(file, &mut tables);
    let told = [
        answer.number,
        answer.place,
        answer.points,
        answer.polygons,
        answer.vertices,
        answer.names,
        answer.name_bytes,
        answer.skipped,
        answer.details,
    ];
    let expected = format!("{}, {}", list_term(&told), tables_term(&tables));
    Case::new(name, Sort::File, &given, &expected)
}

/// The rooms that are enough for a file: just so, more by part of an entry, and
/// more by some entries.
const ENOUGH: usize = 3;

/// All rooms: those, and each table in turn a word short or empty.
const ROOMS: usize = ENOUGH + 6 + 6;

/// Tables of that room. What they hold stands nowhere in a file. For a file
/// that is refused they are short.
fn lent_tables(file: &[u8], room: usize) -> Tables {
    let needed = rules(file).map_or_else(|_| a_few(), |(mesh, _, _)| mesh.tables());
    let lengths = [
        needed.points.len(),
        needed.polygons.len(),
        needed.vertices.len(),
        needed.names.len(),
        needed.name_bytes.len(),
        needed.records.len(),
    ];
    let length = |table: usize| match room {
        0 => lengths[table],
        1 => lengths[table] + 2,
        2 => lengths[table] + 11,
        _ if room == ENOUGH + table => lengths[table].saturating_sub(1),
        _ if room == ENOUGH + 6 + table => 0,
        _ => lengths[table],
    };
    let words = |table: usize| (0..length(table) as u32).map(|n| 1_000_000 + n).collect();
    Tables {
        points: words(0),
        polygons: words(1),
        vertices: words(2),
        names: words(3),
        name_bytes: (0..length(4)).map(|n| n as u8).collect(),
        records: words(5),
    }
}

/// Tables of a word or two, to see that a refusal leaves them.
fn a_few() -> Tables {
    Tables {
        points: vec![0; 3],
        polygons: vec![0; 2],
        vertices: vec![0; 1],
        names: vec![0; 1],
        name_bytes: vec![0; 2],
        records: vec![0; 1],
    }
}

#[cfg(test)]
mod tests {
    use super::*;

    /// All short targeted files are there, all that must be accepted, and those
    /// at the bounds of a polygon's vertices and of a name.
    #[test]
    fn the_fixed_files_are_all_there() {
        let list = fixed();
        let named = |word: &str| list.iter().filter(|one| one.name.starts_with(word)).count();
        let short = |file: &Vec<u8>| file.len() <= MOST_BYTES;
        let targeted = cases::targeted::targeted();
        let targeted = targeted.iter().filter(|one| short(&one.file)).count();
        assert_eq!(named("targeted-"), targeted);
        assert!(targeted > 4_000, "{targeted}");
        assert_eq!(named("accepted-"), cases::accepted::accepted().len());
        assert_eq!(named("reading-"), 84);
        for bound in [
            "boundary-lwob-face-of-200",
            "boundary-lwob-face-of-201",
            "boundary-lwob-patch-of-200",
            "boundary-lwob-patch-of-201",
            "boundary-lwo2-face-of-1023",
            "boundary-lwo2-face-of-1024",
            "boundary-lwob-name-of-255",
            "boundary-lwob-name-of-256",
            "boundary-lwo2-name-of-255",
            "boundary-lwo2-name-of-256",
        ] {
            assert_eq!(named(bound), 1, "{bound}");
        }
    }

    /// The second program gives each accepted file the mesh that the generator
    /// states.
    #[test]
    fn accepted_files_are_accepted() {
        for one in cases::accepted::accepted() {
            let (mesh, skipped, details) = rules(&one.file).expect(&one.name);
            let tables = mesh.tables();
            let name = &one.name;
            assert_eq!(tables.points, one.mesh.points, "{name}");
            assert_eq!(tables.polygons, one.mesh.polygons, "{name}");
            assert_eq!(tables.vertices, one.mesh.vertices, "{name}");
            assert_eq!(tables.names, one.mesh.names, "{name}");
            assert_eq!(tables.name_bytes, one.mesh.name_bytes, "{name}");
            assert_eq!(tables.records, one.mesh.records, "{name}");
            assert_eq!((skipped, details), (one.skipped, one.details), "{name}");
            assert!(one.file.len() <= MOST_BYTES, "{name}");
        }
    }

    #[test]
    fn rooms_differ() {
        let mut samples = samples().into_iter();
        let panel = samples.find(|(name, _)| *name == "panel.lwo");
        let (_, panel) = panel.expect("the panel");
        let told = |room| {
            let mut tables = lent_tables(&panel, room);
            read(&panel, &mut tables).number
        };
        let numbers: Vec<u64> = (0..ROOMS).map(told).collect();
        assert_eq!(numbers[..ENOUGH], [0; ENOUGH]);
        assert_eq!(numbers[ENOUGH..], [16; 12]);
    }
}
