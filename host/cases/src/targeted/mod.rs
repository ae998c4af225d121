//! Targeted files: for every refusal number a file at every place where
//! document 01 allows it. What each must answer is said here, from that
//! document and from requests #101, #103, #107 and #111 of document 02, and
//! worked out by no reader.

mod body;
mod forms;
mod headers;
mod index_order;
mod indices;
mod items;
mod layers;
mod missing;
mod names;
mod order;
mod parts;
mod places;
mod polygons;
mod settings;
mod surfaces;

use crate::assemble::{chunk, form, join, Kind};
use settings::Setting;

/// A file that must be refused.
#[derive(Clone, Debug)]
pub struct Targeted {
    /// A name of lower-case letters, digits and hyphens, unlike all others.
    pub name: String,
    pub file: Vec<u8>,
    /// The number that must be told.
    pub number: u64,
    /// The place that must be told: "the offset of the first byte of the
    /// header, item or string at fault", 0 for numbers 1 to 3.
    pub place: u64,
    /// The offset of the tag of the top-level chunk at fault, which is not
    /// told; 0 for numbers 1 to 3.
    pub chunk: u64,
}

/// The whole catalogue.
pub fn targeted() -> Vec<Targeted> {
    let mut catalogue = Catalogue { list: Vec::new() };
    forms::add(&mut catalogue);
    headers::add(&mut catalogue);
    missing::add(&mut catalogue);
    items::add(&mut catalogue);
    polygons::add(&mut catalogue);
    names::add(&mut catalogue);
    surfaces::add(&mut catalogue);
    layers::add(&mut catalogue);
    indices::add(&mut catalogue);
    index_order::add(&mut catalogue);
    order::add(&mut catalogue);
    parts::add(&mut catalogue);
    places::add(&mut catalogue);
    catalogue.list
}

/// A fault to be put into a file.
pub struct Fault {
    pub number: u64,
    /// Where it lies, counted from the first byte of its top-level chunk.
    pub offset: usize,
}

pub struct Catalogue {
    list: Vec<Targeted>,
}

impl Catalogue {
    /// A file that is refused as a whole, at 0.
    fn add_file(&mut self, name: &str, file: Vec<u8>, number: u64) {
        self.push(name, file, number, 0, 0);
    }

    /// A well-formed chunk with a fault inside, after the chunks of a setting:
    /// once as the last chunk, and once with an unlisted chunk in front, which
    /// moves it, and a cut header (4) behind, which must not be seen.
    fn add_chunk(&mut self, name: &str, before: &Setting, chunk: &[u8], fault: Fault) {
        self.add_last(name, before, chunk, &fault);
        let moved = before.moved();
        let content = join(&[&moved.content()[..], chunk, b"cut"]);
        self.add_content(&format!("{name}-between"), &moved, content, &fault);
    }

    /// Bytes at fault that must be the last of the file.
    fn add_tail(&mut self, name: &str, before: &Setting, tail: &[u8], fault: Fault) {
        self.add_last(name, before, tail, &fault);
        let moved = before.moved();
        self.add_last(&format!("{name}-moved"), &moved, tail, &fault);
    }

    fn add_last(&mut self, name: &str, before: &Setting, tail: &[u8], fault: &Fault) {
        let content = join(&[&before.content()[..], tail]);
        self.add_content(name, before, content, fault);
    }

    fn add_content(&mut self, name: &str, before: &Setting, content: Vec<u8>, fault: &Fault) {
        let chunk = 12 + before.content().len();
        let place = chunk + fault.offset;
        let file = form(before.kind, &content);
        let name = format!("{}-{name}", before.kind.word());
        self.push(&name, file, fault.number, place as u64, chunk as u64);
    }

    fn push(&mut self, name: &str, file: Vec<u8>, number: u64, place: u64, chunk: u64) {
        let letters = |c: char| c.is_ascii_lowercase() || c.is_ascii_digit() || c == '-';
        assert!(name.chars().all(letters), "{name}");
        self.list.push(Targeted {
            name: format!("{number:02}-{name}"),
            file,
            number,
            place,
            chunk,
        });
    }
}

/// An unlisted chunk of odd length, to stand in front.
fn passed_chunk() -> Vec<u8> {
    chunk(b"ZZZZ", b"odd")
}

/// Both kinds of file.
const KINDS: [Kind; 2] = [Kind::Lwob, Kind::Lwo2];

#[cfg(test)]
mod tests {
    use super::*;
    use std::collections::{BTreeMap, HashSet};

    #[test]
    fn the_names_differ() {
        let list = targeted();
        let names: HashSet<&str> = list.iter().map(|one| one.name.as_str()).collect();
        assert_eq!(names.len(), list.len());
    }

    /// One point, and a face of one vertex whose index has only bit 23: no
    /// vertex of one point, so 9 at the index, the last four bytes.
    #[test]
    fn the_highest_bit_of_an_index_counts() {
        let file = form(
            Kind::Lwo2,
            &join(&[
                chunk(b"PNTS", &[0; 12]),
                chunk(b"POLS", b"FACE\x00\x01\xff\x80\x00\x00"),
            ]),
        );
        let digits: String = file.iter().map(|byte| format!("{byte:02x}")).collect();
        let known = "464f524d0000002a4c574f32504e54530000000c000000000000000000000000\
                     504f4c530000000a464143450001ff800000";
        assert_eq!(digits, known);
        let list = targeted();
        let one = list.iter().find(|one| one.file == file).expect("the file");
        assert_eq!((one.number, one.place, one.chunk), (9, 46, 32));
    }

    /// The place lies in the file, or at its end, and not before its chunk.
    #[test]
    fn the_places_lie_in_the_files() {
        for one in targeted() {
            let name = &one.name;
            assert!(one.place <= one.file.len() as u64, "{name}");
            if one.number <= 3 {
                assert_eq!((one.place, one.chunk), (0, 0), "{name}");
            } else {
                assert!(12 <= one.chunk && one.chunk <= one.place, "{name}");
            }
        }
    }

    /// Only what is missing altogether has the file's length as its place.
    #[test]
    fn some_items_and_strings_would_begin_where_the_file_ends() {
        let list = targeted();
        let at_end = |number: u64, kind: &str| {
            let prefix = format!("{number:02}-{kind}-");
            let named = list.iter().filter(|one| one.name.starts_with(&prefix));
            let ends = named.filter(|one| one.place == one.file.len() as u64);
            ends.count()
        };
        for number in 2..=22 {
            for kind in ["lwob", "lwo2"] {
                let some = at_end(number, kind) > 0;
                assert_eq!(some, number == 19 || number == 20, "{number} {kind}");
            }
        }
    }

    #[test]
    fn every_number_is_there() {
        let mut counts: BTreeMap<u64, usize> = BTreeMap::new();
        for one in targeted() {
            *counts.entry(one.number).or_default() += 1;
        }
        let numbers: Vec<u64> = counts.keys().copied().collect();
        assert_eq!(numbers, (2..=15).chain([19, 20, 22]).collect::<Vec<u64>>());
    }
}
