//! Byte mutations of a file: what happens to files on the way. Nothing is
//! expected of a mutated file but that every reader answers it.

use crate::assemble::{u2, u4, Kind, Parts, Tag};
use crate::indices::{all_lengthened, indices, is_short, lengthened};
use crate::insert::{boundaries, correct_form_length};
use crate::random::Random;
use crate::valid::Valid;

/// One to three random changes to the bytes of a valid file.
pub fn mutated(random: &mut Random, valid: &Valid) -> Vec<u8> {
    let mut file = rearranged(random, valid);
    for _ in 0..random.between(0, 2) {
        change(random, &mut file);
    }
    file
}

/// The file, or the file with chunks swapped, doubled or left out, with indices
/// in the long form, or with another type of a PTAG.
fn rearranged(random: &mut Random, valid: &Valid) -> Vec<u8> {
    let mut parts = valid.parts.clone();
    let count = parts.chunks.len();
    if count > 0 {
        let (one, other) = (random.index(count), random.index(count));
        match random.below(7) {
            0 => parts.chunks.swap(one, other),
            1 => {
                let again = parts.chunks[one].clone();
                parts.chunks.insert(other, again);
            }
            2 => {
                parts.chunks.remove(one);
            }
            3 if parts.kind == Kind::Lwo2 => return with_long_indices(random, &parts.file()),
            4 if parts.kind == Kind::Lwo2 => change_type(random, &mut parts),
            _ => {
                let mut file = parts.file();
                change(random, &mut file);
                return file;
            }
        }
    }
    parts.file()
}

/// A valid LWO2 file with one of its short indices in the long form, or all.
fn with_long_indices(random: &mut Random, file: &[u8]) -> Vec<u8> {
    let mut short = indices(file);
    short.retain(|one| is_short(file, one));
    if short.is_empty() || random.once_in(4) {
        all_lengthened(file)
    } else {
        lengthened(file, random.pick(&short))
    }
}

/// One PTAG gets another type: surfaces become parts and parts surfaces, bytes
/// that were not judged become pairs, and pairs such bytes.
fn change_type(random: &mut Random, parts: &mut Parts) {
    let types: [&Tag; 4] = [b"SURF", b"PART", b"PART", b"SMGP"];
    let chunks = parts.chunks.iter_mut();
    let mut taggings: Vec<&mut Vec<u8>> = chunks.filter(|one| one.starts_with(b"PTAG")).collect();
    if !taggings.is_empty() {
        let at = random.index(taggings.len());
        taggings[at][8..12].copy_from_slice(*random.pick(&types));
    }
}

fn change(random: &mut Random, file: &mut Vec<u8>) {
    if file.is_empty() {
        return;
    }
    match random.below(10) {
        0 => flip_bit(random, file),
        1 => replace_byte(random, file),
        2 => insert_bytes(random, file),
        3 => delete_bytes(random, file),
        4 => truncate(random, file),
        5 | 6 => change_number(random, file),
        7 => change_chunk_length(random, file),
        8 => put_index(random, file),
        _ => put_float(random, file),
    }
}

fn flip_bit(random: &mut Random, file: &mut [u8]) {
    let at = random.index(file.len());
    file[at] ^= 1 << random.below(8);
}

fn replace_byte(random: &mut Random, file: &mut [u8]) {
    let at = random.index(file.len());
    let edges = [0, 1, 31, 32, 126, 127, 128, 254, 255];
    file[at] = *random.pick(&edges);
}

fn insert_bytes(random: &mut Random, file: &mut Vec<u8>) {
    let at = random.index(file.len() + 1);
    let count = random.between(1, 4) as usize;
    let bytes = random.bytes(count);
    file.splice(at..at, bytes);
    correct_sometimes(random, file);
}

fn delete_bytes(random: &mut Random, file: &mut Vec<u8>) {
    let at = random.index(file.len());
    let end = (at + random.between(1, 4) as usize).min(file.len());
    file.drain(at..end);
    correct_sometimes(random, file);
}

/// "truncate with and without FORM length corrected".
fn truncate(random: &mut Random, file: &mut Vec<u8>) {
    let length = random.index(file.len());
    file.truncate(length);
    correct_sometimes(random, file);
}

/// A wrong FORM length would hide everything else, so it is mostly put right.
fn correct_sometimes(random: &mut Random, file: &mut [u8]) {
    if !random.once_in(5) {
        correct_form_length(file);
    }
}

/// A two-byte number somewhere becomes one more, one less, or an edge.
fn change_number(random: &mut Random, file: &mut [u8]) {
    if file.len() < 14 {
        return;
    }
    let at = 12 + 2 * random.index((file.len() - 12) / 2);
    let old = u16::from_be_bytes([file[at], file[at + 1]]);
    let new = match random.below(4) {
        0 => old.wrapping_add(1),
        1 => old.wrapping_sub(1),
        2 => 0,
        _ => 0xffff,
    };
    file[at..at + 2].copy_from_slice(&u2(new));
}

/// The length field of a top-level chunk is changed a little. The file may
/// have been changed before, so its chunks are walked with care.
fn change_chunk_length(random: &mut Random, file: &mut [u8]) {
    let Some(offsets) = careful_boundaries(file) else {
        return;
    };
    let at = offsets[random.index(offsets.len())];
    if at + 8 > file.len() {
        return;
    }
    let bytes: [u8; 4] = file[at + 4..at + 8].try_into().expect("four bytes");
    let old = u32::from_be_bytes(bytes);
    let new = match random.below(5) {
        0 => old.wrapping_add(1),
        1 => old.wrapping_sub(1),
        2 => old.wrapping_add(2),
        3 => old.wrapping_sub(2),
        _ => u32::MAX,
    };
    file[at + 4..at + 8].copy_from_slice(&u4(new));
}

/// The boundaries where the chunks still tile the file.
fn careful_boundaries(file: &[u8]) -> Option<Vec<usize>> {
    let mut at = 12;
    while at < file.len() {
        let bytes: [u8; 4] = file.get(at + 4..at + 8)?.try_into().ok()?;
        let length = u32::from_be_bytes(bytes) as usize;
        at = at.checked_add(8 + length + length % 2)?;
    }
    (at == file.len()).then(|| boundaries(file))
}

/// A long index somewhere, mostly one that is too small for this form.
fn put_index(random: &mut Random, file: &mut [u8]) {
    if file.len() < 16 {
        return;
    }
    let at = 12 + random.index(file.len() - 15);
    let index = match random.below(3) {
        0 => *random.pick(&[0xfeff, 0xff00, 0xff01, 0x00ff_ffff]),
        _ => random.below(6) as u32,
    };
    file[at..at + 4].copy_from_slice(&u4(0xff00_0000 + index));
}

/// A float that may not be finite, somewhere.
fn put_float(random: &mut Random, file: &mut [u8]) {
    if file.len() < 16 {
        return;
    }
    let at = 12 + random.index(file.len() - 15);
    let floats = [0x7f80_0000, 0xffc0_0000, 0x7f7f_ffff, 0x8000_0000];
    file[at..at + 4].copy_from_slice(&u4(*random.pick(&floats)));
}
