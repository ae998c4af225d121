//! The lengths of the tables that are lent, and what lies in them before.

use cases::random::Random;
use lwo::{POINT_WORDS, POLYGON_WORDS, RECORD_WORDS};
use second::{Answer, Tables};

/// The lengths of the six tables, in words (name bytes in bytes).
pub type Lengths = [usize; 6];

/// The tables' names, in the order of the lengths.
pub const TABLES: [&str; 6] = [
    "points",
    "polygons",
    "vertices",
    "names",
    "name bytes",
    "records",
];

/// The words of an entry of each table.
const ENTRY_WORDS: Lengths = [POINT_WORDS, POLYGON_WORDS, 1, 1, 1, RECORD_WORDS];

/// Longer files are read with fewer rooms, because each reading takes long.
const LONG_FILE: usize = 200_000;

/// The number of NO ROOM.
pub const NO_ROOM: u64 = 16;

/// The lengths that just suffice for these needs.
pub fn exact(needs: &Answer) -> Lengths {
    let entries = [
        needs.points,
        needs.polygons,
        needs.vertices,
        needs.names,
        needs.name_bytes,
        needs.names,
    ];
    std::array::from_fn(|table| entries[table] as usize * ENTRY_WORDS[table])
}

/// The rooms that a file is read with, from what it answers to empty tables.
pub fn rooms(random: &mut Random, file: &[u8], told: &Answer) -> Vec<Lengths> {
    let has_mesh = told.number == 0 || told.number == NO_ROOM;
    if !has_mesh {
        return rooms_of_refused(random);
    }
    let exact = exact(told);
    let mut list = vec![[0; 6], exact, exact.map(|words| words + 2)];
    list.push(exact.map(|words| words.saturating_sub(1)));
    if file.len() <= LONG_FILE {
        add_each_table(&mut list, &exact);
        list.push(exact.map(|words| words + 1));
        list.push(exact.map(|words| words + random.index(60)));
    }
    list
}

/// A refusal is the same whatever the room.
fn rooms_of_refused(random: &mut Random) -> Vec<Lengths> {
    let some = ENTRY_WORDS.map(|words| random.index(4 * words));
    let more = ENTRY_WORDS.map(|words| 40 * words + random.index(40));
    vec![[0; 6], some, more]
}

/// Each table in turn, where all others suffice: empty, less by a word and by
/// an entry, longer by part of an entry, by an entry, and by much.
fn add_each_table(list: &mut Vec<Lengths>, exact: &Lengths) {
    for (table, &words) in exact.iter().enumerate() {
        let entry = ENTRY_WORDS[table];
        let mut shorter = vec![0, words.saturating_sub(1), words.saturating_sub(entry)];
        shorter.retain(|&length| length < words);
        let mut lengths = shorter;
        lengths.extend([words + 1, words + entry, words + 97]);
        if entry > 1 {
            lengths.push(words + entry - 1);
        }
        lengths.sort_unstable();
        lengths.dedup();
        for length in lengths {
            let mut room = *exact;
            room[table] = length;
            list.push(room);
        }
    }
}

/// Tables of these lengths with any contents.
pub fn filled(random: &mut Random, lengths: &Lengths) -> Tables {
    let mut words = |length: usize| (0..length).map(|_| random.word() as u32).collect();
    let mut tables = Tables {
        points: words(lengths[0]),
        polygons: words(lengths[1]),
        vertices: words(lengths[2]),
        names: words(lengths[3]),
        name_bytes: Vec::new(),
        records: words(lengths[5]),
    };
    tables.name_bytes = random.bytes(lengths[4]);
    tables
}

/// The lengths in words for a message.
pub fn named(lengths: &Lengths) -> String {
    let pairs = TABLES.iter().zip(lengths);
    let words: Vec<String> = pairs
        .map(|(name, words)| format!("{name} {words}"))
        .collect();
    words.join(", ")
}

#[cfg(test)]
mod tests {
    use super::*;

    fn needs() -> Answer {
        Answer {
            number: NO_ROOM,
            points: 2,
            polygons: 1,
            vertices: 3,
            names: 2,
            name_bytes: 5,
            ..Answer::default()
        }
    }

    #[test]
    fn exact_lengths_are_whole_entries() {
        let words = [2 * POINT_WORDS, POLYGON_WORDS, 3, 2, 5, 2 * RECORD_WORDS];
        assert_eq!(exact(&needs()), words);
    }

    /// Every table comes a word short, an entry short, empty, with part of an
    /// entry more and with an entry more, where the others suffice.
    #[test]
    fn every_table_has_its_turn() {
        let list = rooms(&mut Random::new(1), &[], &needs());
        let exact = exact(&needs());
        for table in 0..6 {
            let words = exact[table];
            let entry = ENTRY_WORDS[table];
            for length in [0, words - 1, words - entry, words, words + 1, words + entry] {
                let mut room = exact;
                room[table] = length;
                assert!(list.contains(&room), "{room:?}");
            }
        }
        assert!(list.contains(&exact.map(|words| words - 1)));
        assert!(list.contains(&exact.map(|words| words + 1)));
        assert!(list.contains(&[0; 6]));
    }

    #[test]
    fn tables_have_the_lengths_asked_for() {
        let lengths = [7, 2, 5, 0, 3, 11];
        let tables = filled(&mut Random::new(2), &lengths);
        let got = [
            tables.points.len(),
            tables.polygons.len(),
            tables.vertices.len(),
            tables.names.len(),
            tables.name_bytes.len(),
            tables.records.len(),
        ];
        assert_eq!(got, lengths);
    }
}
