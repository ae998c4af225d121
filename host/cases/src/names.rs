//! Random names, and many names that all differ.

use crate::random::Random;

/// A name of this length without zero bytes, mostly of letters.
pub fn name_of(random: &mut Random, length: usize) -> Vec<u8> {
    let any_byte = random.once_in(4);
    let mut name = Vec::with_capacity(length);
    for _ in 0..length {
        name.push(if any_byte {
            random.between(1, 255) as u8
        } else {
            random.between(u64::from(b'a'), u64::from(b'h')) as u8
        });
    }
    name
}

/// A name that TAGS or SRFS may list: up to 255 bytes, mostly short, sometimes
/// empty.
pub fn listable(random: &mut Random) -> Vec<u8> {
    let length = match random.below(20) {
        0 => 0,
        1 => 255,
        2 => random.between(20, 254),
        _ => random.between(1, 6),
    };
    name_of(random, length as usize)
}

/// Up to so many listable names, no two equal.
pub fn listed(random: &mut Random, most: usize) -> Vec<Vec<u8>> {
    let mut names: Vec<Vec<u8>> = Vec::new();
    for _ in 0..most {
        let name = listable(random);
        if !names.contains(&name) {
            names.push(name);
        }
    }
    names
}

/// The name with this number in a list without equal names: the shortest names
/// first, each in digits 1 to 255.
pub fn numbered(number: u32) -> Vec<u8> {
    let mut name = Vec::new();
    let mut rest = number;
    while rest > 0 {
        rest -= 1;
        name.push((rest % 255) as u8 + 1);
        rest /= 255;
    }
    name
}

/// The names numbered from 0, so many.
pub fn many(count: u32) -> Vec<Vec<u8>> {
    (0..count).map(numbered).collect()
}

#[cfg(test)]
mod tests {
    use super::*;
    use std::collections::HashSet;

    #[test]
    fn numbered_names_differ() {
        let names = many(70_000);
        let different: HashSet<&Vec<u8>> = names.iter().collect();
        assert_eq!(different.len(), 70_000);
        assert!(names.iter().all(|name| !name.contains(&0)));
        assert_eq!(names[0], b"");
        assert_eq!(names[255], [255]);
        assert_eq!(names[256], [1, 1]);
    }
}
