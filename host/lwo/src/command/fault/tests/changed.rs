//! Many files that are changed, and places that no library gives.

use std::collections::BTreeSet;

use cases::files::{fixed, generated};
use cases::samples::samples;
use lwo::{Counts, Refusal, RefusalKind};

use super::Fault;
use crate::command::chunks::chunks;

/// Every sample with one byte changed, or cut before it.
fn changed_samples() -> Vec<Vec<u8>> {
    let mut list = Vec::new();
    for (_, sample) in samples() {
        for place in 0..sample.len() {
            for byte in [0, 1, 0x7f, 0xff, sample[place] ^ 1, sample[place] ^ 0x80] {
                let mut file = sample.clone();
                file[place] = byte;
                list.push(file);
            }
            let mut file = sample[..place].to_vec();
            if let Some(length) = file.get_mut(4..8) {
                length.copy_from_slice(&(place as u32).saturating_sub(8).to_be_bytes());
            }
            list.push(file);
        }
    }
    list
}

/// What is found is told of every number whose place is in the file, and the chunk is the one that
/// the second program names.
#[test]
fn every_refusal_is_told_with_its_chunk_and_with_what_was_found() {
    let files = fixed().into_iter().chain(generated(5).take(3_000));
    let files = files.map(|(_, file)| file).chain(changed_samples());
    let mut numbers = BTreeSet::new();
    for file in files {
        let Err(refusal) = Counts::of(&file) else {
            continue;
        };
        let second = second::rules(&file).expect_err("it is refused");
        let fault = Fault::of(refusal, &file);
        let chunk = fault
            .holders
            .first()
            .map_or(refusal.place, |chunk| chunk.start as u64);
        assert_eq!(chunk, second.chunk, "{fault}\n{file:02x?}");
        assert!(fault.expected.is_some(), "{fault}\n{file:02x?}");
        must_be_plausible(&fault);
        numbers.insert(refusal.number());
    }
    let all: BTreeSet<u64> = (2..=15).chain([19, 20, 22]).collect();
    assert_eq!(numbers, all);
}

/// Nothing is told of bytes that are as the rules ask, and nothing goes wrong, whatever the number
/// and the place.
#[test]
fn any_number_at_any_place() {
    let samples = samples().into_iter().map(|(_, file)| file);
    for file in samples.chain(generated(6).take(60).map(|(_, file)| file)) {
        let edges = chunks(&file).flat_map(|chunk| [chunk.start, chunk.body, chunk.end]);
        let edges = edges.flat_map(|edge| [edge.saturating_sub(1), edge, edge + 1]);
        let inside = (0..file.len() + 9).step_by(1 + file.len() / 300);
        let places: BTreeSet<usize> = edges.chain(inside).collect();
        let places = places.into_iter().map(|place| place as u64);
        for place in places.chain([u64::from(u32::MAX), u64::MAX]) {
            for kind in RefusalKind::all() {
                let fault = Fault::of(Refusal::new(kind, place), &file);
                must_be_plausible(&fault);
                // The place of these is no byte of the file.
                if matches!(kind.number(), 1..=3 | 16..=18) {
                    assert_eq!(fault.holders, []);
                }
            }
        }
    }
}

/// One line, and a number that is found is none of those that are expected.
fn must_be_plausible(fault: &Fault) {
    let text = fault.to_string();
    assert!(!text.chars().any(char::is_control), "{text}");
    let Some(told) = &fault.expected else {
        return;
    };
    let words: Vec<&str> = told.expected.split([' ', ',']).collect();
    let found = number_in(&told.found);
    let number = |word: &str| word.parse::<i64>().expect("a number");
    let is_expected = match words[..] {
        ["at", "most", most, ..] => found <= number(most),
        [low, "to", high, ..] => (number(low)..=number(high)).contains(&found),
        [one, "or", other @ "3"] | [one, "", "or", other, "with", ..] => {
            found == number(one) || found == number(other)
        }
        [each, "for", "each", ..] => found % number(each) == 0,
        [least, "bytes", "or", "more"] => found >= number(least),
        ["two"] => found >= 65_280,
        [one] | [one, "(PNTS" | "(POLS" | "(TAGS" | "(SRFS", ..] if one.parse::<i64>().is_ok() => {
            found == number(one)
        }
        ["a", "second", "zero", "byte"] => told.found.ends_with("0x00"),
        ["a", "zero", "byte", ..] => told.found.starts_with("0x00"),
        ["a", "header", "of", bytes, ..] => found >= number(bytes),
        [.., "of", bytes, "bytes"] | [.., "of", _, "or", bytes, "bytes"] => found >= number(bytes),
        _ => false,
    };
    assert!(!is_expected, "{text}");
}

/// The first number in a text; what has none is nothing.
fn number_in(text: &str) -> i64 {
    let mut words = text.split([' ', ',']);
    words.find_map(|word| word.parse().ok()).unwrap_or_default()
}
