//! What several tests need.

use cases::mutate::mutated;
use cases::random::Random;
use cases::valid::valid;
use second::found::POLYGON_WORDS;
use second::{read, rules, Answer, Mesh, Tables};

/// The bytes of a hexadecimal text; blanks and newlines are passed over.
pub fn hex(text: &str) -> Vec<u8> {
    let digits: Vec<u8> = text
        .bytes()
        .filter(|byte| !byte.is_ascii_whitespace())
        .collect();
    assert_eq!(digits.len() % 2, 0, "an odd number of digits");
    digits
        .chunks_exact(2)
        .map(|pair| {
            let pair = std::str::from_utf8(pair).expect("digits are ASCII");
            u8::from_str_radix(pair, 16).expect("hexadecimal digits")
        })
        .collect()
}

/// What a file says in the words of the listing's first line.
pub fn verdict(file: &[u8]) -> String {
    match rules(file) {
        Ok(_) => String::from("accepted"),
        Err(refusal) => format!("refused {} at {}", refusal.number(), refusal.place()),
    }
}

/// Reads with no room at all: the needs of an accepted file, or its refusal.
pub fn needs(file: &[u8]) -> Answer {
    read(file, &mut Tables::default())
}

/// Tables of exactly the sizes that are needed, filled with words that no
/// reader would put there.
pub fn exact_room(needs: &Answer) -> Tables {
    filled_room(needs, [0; 6])
}

/// The same with so many words more in each table.
pub fn filled_room(needs: &Answer, more: [usize; 6]) -> Tables {
    Tables {
        points: vec![0xdead_beef; needs.points as usize * 3 + more[0]],
        polygons: vec![0xdead_beef; needs.polygons as usize * POLYGON_WORDS + more[1]],
        vertices: vec![0xdead_beef; needs.vertices as usize + more[2]],
        names: vec![0xdead_beef; needs.names as usize + more[3]],
        name_bytes: vec![0xa5; needs.name_bytes as usize + more[4]],
        records: vec![0xdead_beef; needs.names as usize * 10 + more[5]],
    }
}

/// Reads an accepted file into tables of exactly its sizes.
pub fn accepted(file: &[u8]) -> (Answer, Tables) {
    let mut tables = exact_room(&needs(file));
    let answer = read(file, &mut tables);
    assert_eq!(answer.number, 0, "the file must be accepted: {answer:?}");
    (answer, tables)
}

/// The mesh of an accepted file, by `read`.
pub fn mesh_of(file: &[u8]) -> Mesh {
    Mesh::from_tables(&accepted(file).1)
}

/// A valid file with some random changes.
pub fn mutation(seed: u64) -> Vec<u8> {
    let mut random = Random::new(seed);
    let one = valid(&mut random);
    mutated(&mut random, &one)
}
