//! One file, read by the library and by the second program in many rooms.

use cases::random::Random;
use second::{Answer, Tables};

use crate::guarded::Guarded;
use crate::lent::{holds, Lent};
use crate::library::Library;
use crate::rooms::{exact, filled, named, rooms, NO_ROOM};

/// What came of reading a file.
pub struct Reading {
    /// What the file answers where there is room.
    pub answer: Answer,
    /// How often it was read, and how often there was no room.
    pub reads: u64,
    pub no_room: u64,
}

/// Reads a file in many rooms with both; an error says what differs.
pub fn compare(library: &dyn Library, random: &mut Random, file: &[u8]) -> Result<Reading, String> {
    let lent_file = Guarded::new(file);
    let mut answer = second::read(file, &mut Tables::default());
    let mut reading = Reading {
        answer,
        reads: 0,
        no_room: 0,
    };
    for lengths in rooms(random, file, &answer) {
        let tables = filled(random, &lengths);
        let told = compare_in(library, &lent_file, tables)
            .map_err(|what| format!("read with tables of {}: {what}", named(&lengths)))?;
        reading.reads += 1;
        reading.no_room += u64::from(told == NO_ROOM);
    }
    // A reader must not write there, and nothing in C keeps it from doing so.
    holds("the file that was read", &lent_file, file)?;
    if answer.number == NO_ROOM {
        answer.number = 0;
    }
    reading.answer = answer;
    Ok(reading)
}

/// Reads a file in one room with both, and gives the number that was told.
fn compare_in(library: &dyn Library, file: &Guarded<u8>, tables: Tables) -> Result<u64, String> {
    let mut lent = Lent::new(&tables);
    let got = library.read(file, &mut lent);
    let mut expected = tables;
    let told = second::read(file.content(), &mut expected);
    if got != told {
        return Err(format!("the answer is {got:?}, and {told:?} is expected"));
    }
    lent.hold(&expected)?;
    Ok(told.number)
}

/// The library's own answer and tables with just enough room, for a file that
/// was found to have a mesh with these needs.
pub fn read_exactly(
    library: &dyn Library,
    random: &mut Random,
    file: &[u8],
    needs: &Answer,
) -> (Answer, Tables) {
    let mut lent = Lent::new(&filled(random, &exact(needs)));
    let answer = library.read(&Guarded::new(file), &mut lent);
    (answer, lent.tables())
}
