//! The files that are compared: fixed ones, and one for each seed and number.

use std::sync::OnceLock;

use cases::insert::{boundaries, chunk_spans, with_unlisted};
use cases::mutate::mutated;
use cases::random::Random;
use cases::valid::valid;
use cases::{accepted, boundary, targeted};

use crate::damage::damaged;
use crate::hexadecimal;

/// Example files, one a line after its level: see `second/tests/readings.txt`.
const READINGS: &str = include_str!("../../second/tests/readings.txt");

/// The sample file of source 000.
const SAMPLE: &str = include_str!("../../second/tests/sample-000.hex");

/// A file and what it is called.
pub struct Named {
    pub name: String,
    pub file: Vec<u8>,
}

fn named(name: impl Into<String>, file: Vec<u8>) -> Named {
    Named {
        name: name.into(),
        file,
    }
}

/// The files that are the same for every seed: every targeted file and every
/// one that must be accepted, the files at the program's bounds, the example of
/// every reading, and the sample.
pub fn fixed() -> Vec<Named> {
    let mut list = Vec::new();
    for one in targeted::targeted() {
        list.push(named(format!("targeted {}", one.name), one.file));
    }
    for one in accepted::accepted() {
        list.push(named(format!("accepted {}", one.name), one.file));
    }
    for one in boundary::small() {
        list.push(named(format!("bound {}", one.name), one.file));
    }
    for (number, line) in READINGS.lines().enumerate() {
        list.push(named(format!("reading {}", number + 1), reading(line)));
    }
    let sample = hexadecimal::bytes_of(SAMPLE).expect("the sample is hexadecimal");
    list.push(named("sample 000", sample));
    list
}

/// The files at the bounds of the library, up to the longest one, but for
/// those with many names.
pub fn large() -> Vec<Named> {
    let mut list = at_bounds();
    list.retain(|one| !has_many_names(&one.file));
    list
}

/// The files at the bounds with tens of thousands of names. A reader that
/// compares each name with every earlier one takes long over each.
pub fn many_names() -> Vec<Named> {
    let mut list = at_bounds();
    list.retain(|one| has_many_names(&one.file));
    list
}

fn at_bounds() -> Vec<Named> {
    let list = boundary::large().into_iter();
    list.map(|one| named(format!("bound {}", one.name), one.file))
        .collect()
}

/// Whether a list of names is longer than 50,000 bytes.
fn has_many_names(file: &[u8]) -> bool {
    chunk_spans(file).into_iter().any(|span| {
        let tag = &file[span.start..span.start + 4];
        (tag == b"TAGS" || tag == b"SRFS") && span.len() > 50_000
    })
}

fn reading(line: &str) -> Vec<u8> {
    let (_, rest) = line.split_once("  ").expect("a level");
    let (digits, _) = rest.split_once(" -> ").expect("an arrow");
    hexadecimal::bytes_of(digits).expect("a file in hexadecimal")
}

/// The file of this number for a seed. It needs no earlier one, so that a run
/// can begin anywhere.
pub fn generated(seed: u64, number: u64) -> Named {
    let random = &mut Random::new(mixed(seed, number));
    if random.once_in(3) {
        let group = random.pick(near_faults());
        let file = random.pick(group).clone();
        return named("damaged targeted", damaged(random, file));
    }
    let one = valid(random);
    let kind = one.parts.kind.word();
    match random.below(8) {
        0 | 1 => named(format!("valid {kind}"), one.parts.file()),
        2 => named(
            format!("inserted {kind}"),
            insertions(random, one.parts.file()),
        ),
        3 | 4 => named(format!("mutated {kind}"), mutated(random, &one)),
        _ => named(format!("damaged {kind}"), damaged(random, one.parts.file())),
    }
}

/// The targeted files with a fault in a chunk, by their number: a change to
/// one of them comes near a fault more often than a change to a valid file,
/// and every number has the same chance.
fn near_faults() -> &'static [Vec<Vec<u8>>] {
    static FILES: OnceLock<Vec<Vec<Vec<u8>>>> = OnceLock::new();
    FILES.get_or_init(|| {
        let all = targeted::targeted();
        let of = |number: u64| all.iter().filter(move |one| one.number == number);
        (4..=15)
            .chain([19, 20, 22])
            .map(|number| of(number).map(|one| one.file.clone()).collect())
            .collect()
    })
}

/// Unlisted chunks at one to four boundaries.
fn insertions(random: &mut Random, mut file: Vec<u8>) -> Vec<u8> {
    for _ in 0..random.between(1, 4) {
        let at = *random.pick(&boundaries(&file));
        file = with_unlisted(random, &file, at);
    }
    file
}

/// One seed of a seed and a number, different for each pair that is likely.
pub fn mixed(seed: u64, number: u64) -> u64 {
    let mut random = Random::new(seed);
    random
        .word()
        .wrapping_add(number.wrapping_mul(0x9e37_79b9_7f4a_7c15))
}

#[cfg(test)]
mod tests {
    use super::*;

    #[test]
    fn the_fixed_files_are_all_there() {
        let names: Vec<String> = fixed().into_iter().map(|one| one.name).collect();
        let of = |word: &str| names.iter().filter(|name| name.starts_with(word)).count();
        assert_eq!(of("targeted "), targeted::targeted().len());
        assert_eq!(of("accepted "), accepted::accepted().len());
        assert_eq!(of("bound "), boundary::small().len());
        assert_eq!(of("reading "), 84);
        assert_eq!(of("sample "), 1);
    }

    #[test]
    fn the_files_at_the_bounds_are_all_there() {
        let (large, names) = (large().len(), many_names().len());
        assert_eq!(large + names, boundary::large().len());
        // Two counts of tags that are enough, one that is not for a surface and
        // for a part, and three of surfaces.
        assert_eq!(names, 2 + 2 + 3);
    }

    #[test]
    fn a_seed_and_a_number_give_one_file() {
        let file = generated(3, 14).file;
        assert_eq!(generated(3, 14).file, file);
        assert_ne!(generated(3, 15).file, file);
        assert_ne!(generated(4, 14).file, file);
    }

    #[test]
    fn every_sort_is_generated() {
        let names: Vec<String> = (0..200).map(|number| generated(1, number).name).collect();
        assert!(names.contains(&String::from("damaged targeted")));
        for sort in ["valid", "inserted", "mutated", "damaged"] {
            for kind in ["lwob", "lwo2"] {
                let name = format!("{sort} {kind}");
                assert!(names.contains(&name), "{name}");
            }
        }
    }
}
