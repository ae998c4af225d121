//! Places: where a refused file's fault lies, and that it lies in its chunk.

use cases::boundary;
use cases::insert::{inserted, kind_of, known_boundaries};
use cases::random::Random;
use cases::targeted::targeted;
use cases::unlisted::unlisted_chunk;
use cases::valid::valid;
use second::{rules, Refusal};

use crate::help::mutation;

/// The offset at which the body of the chunk at an offset ends, or the file
/// where no whole chunk is there.
fn body_end(file: &[u8], chunk: u64) -> u64 {
    let end = file.len() as u64;
    let Some(field) = file.get(chunk as usize + 4..chunk as usize + 8) else {
        return end;
    };
    let length: [u8; 4] = field.try_into().expect("four bytes");
    end.min(chunk + 8 + u64::from(u32::from_be_bytes(length)))
}

/// The place of a refused file lies in its chunk: at its tag, where the chunk
/// itself is at fault, or in its body, whose end is the place of an item that
/// is missing altogether. 5 is always of the chunk itself; 4 and 6 are of it or
/// of a sub-chunk; all others are of an item, a string or a sub-chunk.
pub fn check_place(file: &[u8], name: &str) {
    let refusal = rules(file).expect_err("a refused file");
    let (number, chunk, place) = (refusal.number(), refusal.chunk, refusal.place());
    if number <= 3 {
        assert_eq!((chunk, place), (0, 0), "{name}");
        return;
    }
    assert!(12 <= chunk && chunk < file.len() as u64, "{name}");
    assert!(
        place == chunk || (chunk + 8..=body_end(file, chunk)).contains(&place),
        "{name}: {place} is not in the chunk at {chunk}"
    );
    match number {
        5 => assert_eq!(place, chunk, "{name}"),
        4 | 6 => {}
        _ => assert_ne!(place, chunk, "{name}"),
    }
}

#[test]
fn lie_in_their_chunk() {
    for one in targeted() {
        check_place(&one.file, &one.name);
    }
    let bounds = boundary::small().into_iter().chain(boundary::large());
    for one in bounds.filter(|one| one.number != 0) {
        check_place(&one.file, &one.name);
    }
}

/// The file up to the chunk at an offset, and that chunk with only so many
/// bytes of its body.
fn ending(file: &[u8], at: u64, length: usize) -> Vec<u8> {
    let (before, chunk) = file.split_at(at as usize);
    let tag = chunk[..4].try_into().expect("four bytes");
    let shorter = cases::assemble::chunk(tag, &chunk[8..8 + length]);
    let mut ending = [before, &shorter].concat();
    cases::insert::correct_form_length(&mut ending);
    ending
}

/// The last chunk of a valid file cut to every length: a fault lies in it, and
/// often at the file's end.
#[test]
fn lie_in_a_chunk_that_is_cut() {
    let (mut cut, mut at_end) = (0, 0);
    for seed in 0..400 {
        let parts = valid(&mut Random::new(seed)).parts;
        let Some(last) = parts.chunks.last() else {
            continue;
        };
        let at = parts.offset(parts.chunks.len() - 1);
        for length in 0..last.len() - 8 {
            let file = ending(&parts.file(), at, length);
            if let Err(refusal) = rules(&file) {
                check_place(&file, &format!("seed {seed} cut to {length}"));
                assert_eq!(refusal.chunk, at, "seed {seed} cut to {length}");
                cut += 1;
                at_end += u64::from(refusal.place() == file.len() as u64);
            }
        }
    }
    assert!(cut > 10_000, "{cut}");
    assert!(at_end > 1_000, "{at_end}");
}

/// A number or type at fault is judged once it is whole: with one byte of it
/// the chunk is refused for that item cut, with the whole of it as before, and
/// always at its first byte.
#[test]
fn are_those_of_the_items() {
    let (mut seen, mut long) = (0, 0);
    for seed in 0..20_000 {
        let file = mutation(seed);
        let Err(refusal) = rules(&file) else {
            continue;
        };
        // Lists of polygons and taggings hold nothing but such items; the
        // envelopes of a SURF lie in sub-chunks.
        let of_item = matches!(refusal.number(), 8..=12 | 14 | 22);
        if !of_item || tag_at(&file, refusal.chunk) == *b"SURF" {
            continue;
        }
        let there = (refusal.place() - refusal.chunk) as usize - 8;
        let told = |more: usize| {
            let ending = ending(&file, refusal.chunk, there + more);
            let refusal = rules(&ending).expect_err("a refused file");
            (refusal.number(), refusal.place())
        };
        let (number, place) = (refusal.number(), refusal.place());
        assert_eq!(told(1), (19, place), "seed {seed}");
        let size = if told(2) == (19, place) { 4 } else { 2 };
        assert_eq!(told(size), (number, place), "seed {seed}");
        seen += 1;
        long += u64::from(number == 22);
    }
    assert!(seen > 1_000, "{seen}");
    assert!(long > 100, "{long}");
}

fn tag_at(file: &[u8], chunk: u64) -> [u8; 4] {
    let at = chunk as usize;
    file[at..at + 4].try_into().expect("four bytes")
}

/// One more unlisted chunk at every boundary of a refused file: the refusal
/// moves by it exactly where the chunk at fault lies behind.
#[test]
fn move_with_their_chunk() {
    let random = &mut Random::new(1);
    let (mut moved, mut stayed) = (0, 0);
    let list = targeted().into_iter().map(|one| one.file);
    for file in list.chain((0..2_000).map(mutation)) {
        let Err(refusal) = rules(&file) else {
            continue;
        };
        if refusal.chunk == 0 {
            continue;
        }
        for at in known_boundaries(&file) {
            let chunk = unlisted_chunk(random, kind_of(&file));
            let longer = inserted(&file, at, &chunk);
            let told = rules(&longer).expect_err("a refused file");
            let by = if at as u64 <= refusal.chunk {
                moved += 1;
                chunk.len() as u64
            } else {
                stayed += 1;
                0
            };
            assert_eq!(
                summary(&told),
                (refusal.number(), refusal.chunk + by, refusal.place() + by)
            );
        }
    }
    assert!(moved > 10_000 && stayed > 2_000, "{moved} {stayed}");
}

fn summary(refusal: &Refusal) -> (u64, u64, u64) {
    (refusal.number(), refusal.chunk, refusal.place())
}
