//! Byte changes to a valid file, from one to many: what a bad disk, a bad line
//! or a bad exporter makes of it.

use cases::insert::{chunk_spans, correct_form_length};
use cases::random::Random;

/// A file with changes of one of four strengths. A wrong head would hide
/// everything else, so it is mostly put right.
pub fn damaged(random: &mut Random, mut file: Vec<u8>) -> Vec<u8> {
    let head: Vec<u8> = file.iter().take(12).copied().collect();
    let most = *random.pick(&[1, 1, 3, 10, 40]);
    for _ in 0..random.between(1, most) {
        if !file.is_empty() {
            change(random, &mut file);
        }
    }
    if !random.once_in(16) {
        file.splice(..file.len().min(12), head);
        correct_form_length(&mut file);
    }
    file
}

fn change(random: &mut Random, file: &mut Vec<u8>) {
    let at = random.index(file.len());
    match random.below(18) {
        0 | 1 => file[at] ^= 1 << random.below(8),
        2 => file[at] = random.byte(),
        3 => insert(random, file, at),
        4 => delete(random, file, at),
        5 => file.truncate(at),
        6 => copy_span(random, file),
        7 => double_chunk(random, file),
        8 => swap_chunks(random, file),
        9 => change_length(random, file),
        _ => change_number(random, file),
    }
}

fn insert(random: &mut Random, file: &mut Vec<u8>, at: usize) {
    let count = 1 + random.index(4);
    let bytes = random.bytes(count);
    file.splice(at..at, bytes);
}

fn delete(random: &mut Random, file: &mut Vec<u8>, at: usize) {
    let end = (at + 1 + random.index(4)).min(file.len());
    file.drain(at..end);
}

/// Some bytes of the file over others of it.
fn copy_span(random: &mut Random, file: &mut [u8]) {
    let length = 1 + random.index(file.len().min(12));
    let from = random.index(file.len() - length + 1);
    let to = random.index(file.len() - length + 1);
    file.copy_within(from..from + length, to);
}

fn double_chunk(random: &mut Random, file: &mut Vec<u8>) {
    let spans = chunk_spans(file);
    if !spans.is_empty() {
        let chunk = file[random.pick(&spans).clone()].to_vec();
        let at = random.pick(&spans).start;
        file.splice(at..at, chunk);
    }
}

fn swap_chunks(random: &mut Random, file: &mut Vec<u8>) {
    let spans = chunk_spans(file);
    if spans.len() > 1 {
        let first = random.index(spans.len() - 1);
        let later = first + 1 + random.index(spans.len() - 1 - first);
        let (one, other) = (spans[first].clone(), spans[later].clone());
        let between = file[one.end..other.start].to_vec();
        let swapped = [&file[other.clone()], &between[..], &file[one.clone()]].concat();
        file.splice(one.start..other.end, swapped);
    }
}

/// A chunk's length becomes a little more or less, or very large.
fn change_length(random: &mut Random, file: &mut [u8]) {
    let spans = chunk_spans(file);
    if !spans.is_empty() {
        let at = random.pick(&spans).start + 4;
        let field: [u8; 4] = file[at..at + 4].try_into().expect("four bytes");
        let old = u32::from_be_bytes(field);
        let new = match random.below(6) {
            0 => u32::MAX - random.below(4) as u32,
            1 => 0,
            _ => old
                .wrapping_add(random.between(0, 8) as u32)
                .wrapping_sub(4),
        };
        file[at..at + 4].copy_from_slice(&new.to_be_bytes());
    }
}

/// Two bytes at an even place, where most numbers lie, become an edge, change
/// a little or change their sign.
fn change_number(random: &mut Random, file: &mut [u8]) {
    if file.len() < 14 {
        return;
    }
    let at = 12 + 2 * random.index((file.len() - 12) / 2);
    let old = u16::from_be_bytes([file[at], file[at + 1]]);
    let edges = [0, 1, 2, 3, 0x7f80, 0x7fff, 0x8000, 0xff00, 0xfeff, 0xffff];
    let new = match random.below(4) {
        0 => *random.pick(&edges),
        1 => old.wrapping_add(1),
        2 => old.wrapping_sub(1),
        _ => old.wrapping_neg(),
    };
    file[at..at + 2].copy_from_slice(&new.to_be_bytes());
}

#[cfg(test)]
mod tests {
    use super::*;
    use cases::assemble::{chunk, form, join, Kind};

    #[test]
    fn swapped_chunks_are_all_there() {
        let chunks = [
            chunk(b"AAAA", b"1"),
            chunk(b"BBBB", b"22"),
            chunk(b"CCCC", b""),
        ];
        let file = form(Kind::Lwo2, &join(&chunks));
        let mut seen = Vec::new();
        for seed in 0..40 {
            let mut other = file.clone();
            swap_chunks(&mut Random::new(seed), &mut other);
            let mut tags: Vec<u8> = chunk_spans(&other).iter().map(|s| other[s.start]).collect();
            seen.push(tags.clone());
            tags.sort_unstable();
            assert_eq!(tags, b"ABC");
            assert_ne!(other, file);
        }
        assert!(seen.contains(&b"BAC".to_vec()) && seen.contains(&b"CBA".to_vec()));
    }
}
