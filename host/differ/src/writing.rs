//! One mesh, written by the library and by the second program into outputs of
//! several lengths, and read back.

use cases::random::Random;
use second::{Answer, Tables, Written};

use crate::guarded::Guarded;
use crate::lent::{holds, Lent};
use crate::library::Library;
use crate::reading::read_exactly;
use crate::rooms::NO_ROOM;

/// What came of writing a mesh.
pub struct Writing {
    /// What the mesh answers where there is room.
    pub number: u64,
    /// How often it was written, and how often there was no room.
    pub writes: u64,
    pub no_room: u64,
}

/// Writes tables, be they a mesh or not, with both; an error says what
/// differs. What was written has to read back as the same tables.
pub fn compare(
    library: &dyn Library,
    random: &mut Random,
    tables: &Tables,
) -> Result<Writing, String> {
    let lent = Lent::new(tables);
    let told = second::write(tables, &mut []);
    let mut writing = Writing {
        number: told.number,
        writes: 0,
        no_room: 0,
    };
    for length in output_lengths(random, &told) {
        let before = random.bytes(length);
        let written = compare_in(library, &lent, tables, before)
            .map_err(|what| format!("written into {length} bytes: {what}"))?;
        writing.writes += 1;
        writing.no_room += u64::from(written == NO_ROOM);
    }
    lent.hold(tables)
        .map_err(|what| format!("the tables that were written: {what}"))?;
    if told.number == NO_ROOM {
        writing.number = 0;
        compare_read_back(library, random, tables, told.length as usize)?;
    }
    Ok(writing)
}

/// Exactly enough, a byte less, a byte more, none, some, and plenty.
fn output_lengths(random: &mut Random, told: &Written) -> Vec<usize> {
    let needed = told.length as usize;
    if needed == 0 {
        return vec![0, 1 + random.index(20), 3_000];
    }
    vec![
        0,
        needed - 1,
        random.index(needed),
        needed,
        needed + 1,
        needed + 100 + random.index(100),
    ]
}

/// Writes into one output with both, and gives the number that was told.
fn compare_in(
    library: &dyn Library,
    lent: &Lent,
    tables: &Tables,
    before: Vec<u8>,
) -> Result<u64, String> {
    let mut out = Guarded::new(&before);
    let got = library.write(lent, &mut out);
    let mut expected = before;
    let told = second::write(tables, &mut expected);
    if got != told {
        return Err(format!("the answer is {got:?}, and {told:?} is expected"));
    }
    holds("the output", &out, &expected)?;
    Ok(told.number)
}

/// "read again is the same mesh, to the bit": both by the library, with no
/// word of the second program.
fn compare_read_back(
    library: &dyn Library,
    random: &mut Random,
    tables: &Tables,
    length: usize,
) -> Result<(), String> {
    let mut out = Guarded::new(&random.bytes(length));
    library.write(&Lent::new(tables), &mut out);
    let expected = answer_of(tables);
    let (answer, again) = read_exactly(library, random, out.content(), &expected);
    if answer != expected {
        return Err(format!(
            "read back, the answer is {answer:?}, and {expected:?} is expected"
        ));
    }
    Lent::new(&again)
        .hold(tables)
        .map_err(|what| format!("read back: {what}"))
}

/// The answer that the canonical file of a mesh has: its own counts, and
/// nothing skipped.
fn answer_of(tables: &Tables) -> Answer {
    Answer {
        points: tables.point_count() as u64,
        polygons: tables.polygon_count() as u64,
        vertices: tables.vertices.len() as u64,
        names: tables.names.len() as u64,
        name_bytes: tables.name_bytes.len() as u64,
        ..Answer::default()
    }
}
