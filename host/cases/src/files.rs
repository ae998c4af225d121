//! The files that the program writes: an endless mixture for each seed.

use crate::accepted::accepted;
use crate::boundary;
use crate::mutate::mutated;
use crate::random::Random;
use crate::targeted::targeted;
use crate::valid::valid;

/// "The program's input: at most 65,536 bytes."
const MOST_BYTES: usize = 65_536;

/// Names and bytes without end: targeted and boundary files, as long as there
/// are any, between valid and mutated ones. Each name begins with its number.
/// The fixed files come in an order that goes by the seed, so that a few of
/// them are of every sort.
pub fn files(seed: u64) -> impl Iterator<Item = (String, Vec<u8>)> {
    let mut random = Random::new(seed);
    let mut list = fixed();
    shuffle(&mut random, &mut list);
    let mut fixed = list.into_iter();
    (0u64..).map(move |number| {
        let (name, bytes) = match number % 3 {
            0 => fixed.next().unwrap_or_else(|| mutated_file(&mut random)),
            1 => valid_file(&mut random),
            _ => mutated_file(&mut random),
        };
        (format!("{number:06}-{name}"), bytes)
    })
}

fn shuffle<T>(random: &mut Random, list: &mut [T]) {
    for last in (1..list.len()).rev() {
        list.swap(last, random.index(last + 1));
    }
}

/// Valid and mutated files in turn, without end.
pub fn generated(seed: u64) -> impl Iterator<Item = (String, Vec<u8>)> {
    let mut random = Random::new(seed);
    (0u64..).map(move |number| match number % 2 {
        0 => valid_file(&mut random),
        _ => mutated_file(&mut random),
    })
}

/// The files that are the same for every seed: the boundary files that the
/// program may read, then the targeted ones, then those that are accepted.
pub fn fixed() -> Vec<(String, Vec<u8>)> {
    let bounds = boundary::small().into_iter();
    let bounds = bounds.map(|one| (format!("boundary-{}", one.name), one.file));
    let targets = targeted().into_iter();
    let targets = targets.map(|one| (format!("targeted-{}", one.name), one.file));
    let good = accepted().into_iter();
    let good = good.map(|one| (format!("accepted-{}", one.name), one.file));
    let all = bounds.chain(targets).chain(good);
    all.filter(|(_, bytes)| bytes.len() <= MOST_BYTES).collect()
}

fn valid_file(random: &mut Random) -> (String, Vec<u8>) {
    loop {
        let one = valid(random);
        let bytes = one.parts.file();
        if bytes.len() <= MOST_BYTES {
            return (format!("valid-{}", one.parts.kind.word()), bytes);
        }
    }
}

fn mutated_file(random: &mut Random) -> (String, Vec<u8>) {
    loop {
        let one = valid(random);
        let bytes = mutated(random, &one);
        if bytes.len() <= MOST_BYTES {
            return (format!("mutated-{}", one.parts.kind.word()), bytes);
        }
    }
}

#[cfg(test)]
mod tests {
    use super::*;

    /// The 64-bit FNV-1a hash, to tell bytes apart in one number.
    fn hash(start: u64, bytes: &[u8]) -> u64 {
        bytes.iter().fold(start, |hash, &byte| {
            (hash ^ u64::from(byte)).wrapping_mul(0x0100_0000_01b3)
        })
    }

    fn hash_of_files(seed: u64, count: usize) -> u64 {
        let start = 0xcbf2_9ce4_8422_2325;
        files(seed).take(count).fold(start, |sum, (name, bytes)| {
            hash(hash(sum, name.as_bytes()), &bytes)
        })
    }

    /// The same seed gives the same bytes on every machine. A change of the
    /// generator changes these numbers; then they are to be put right by hand.
    #[test]
    fn the_same_seed_gives_the_same_files() {
        assert_eq!(hash_of_files(1, 300), 0x8f79_3ea6_4be3_6898);
        assert_eq!(hash_of_files(2, 300), 0x087a_c526_53ee_d842);
    }

    #[test]
    fn another_seed_gives_other_files() {
        assert_ne!(hash_of_files(1, 30), hash_of_files(2, 30));
    }

    #[test]
    fn the_mixture_has_every_sort() {
        let names: Vec<String> = files(1).take(1_500).map(|(name, _)| name).collect();
        for sort in [
            "boundary-",
            "targeted-",
            "valid-lwob",
            "valid-lwo2",
            "mutated-lwob",
            "mutated-lwo2",
        ] {
            assert!(names.iter().any(|name| name.contains(sort)), "{sort}");
        }
    }
}
