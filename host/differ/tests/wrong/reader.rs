//! Readers that take chunks in another way than the second program does.

use differ::guarded::Guarded;
use differ::lent::Lent;
use differ::library::Library;
use differ::{check, files};
use second::chunks::{chunk, Chunk};
use second::found::Found;
use second::refusal::Flaw;
use second::{canonical, lwob, Answer, Mesh, Tables, Written};

use crate::RIGHT;

/// How a chunk is judged and taken.
pub trait Take {
    fn take<'a>(&self, file: &'a [u8], chunk: &Chunk, found: &mut Found<'a>) -> Result<(), Flaw>;
}

/// The same as a function.
pub type TakeFn = for<'a> fn(&'a [u8], &Chunk, &mut Found<'a>) -> Result<(), Flaw>;

impl Take for TakeFn {
    fn take<'a>(&self, file: &'a [u8], chunk: &Chunk, found: &mut Found<'a>) -> Result<(), Flaw> {
        self(file, chunk, found)
    }
}

/// The second program with its own or other ways to take a chunk.
pub struct Reader<T> {
    pub lwob: TakeFn,
    pub lwo2: T,
}

/// A reader that takes LWO2's chunks in another way.
pub fn of_lwo2<T: Take>(lwo2: T) -> Reader<T> {
    let lwob = lwob::take;
    Reader { lwob, lwo2 }
}

impl<T: Take> Reader<T> {
    /// Takes the chunks of a file that is not refused as a whole.
    fn gather<'a>(&self, file: &'a [u8]) -> Result<Found<'a>, Flaw> {
        let take: &dyn Take = match &file[8..12] {
            b"LWOB" => &self.lwob,
            _ => &self.lwo2,
        };
        let mut found = Found::default();
        let mut at = 12;
        while at < file.len() {
            let chunk = chunk(file, at, file.len())?;
            take.take(file, &chunk, &mut found)?;
            at = chunk.next;
        }
        Ok(found)
    }
}

impl<T: Take> Library for Reader<T> {
    fn read(&self, file: &Guarded<u8>, lent: &mut Lent) -> Answer {
        let right = second::read(file.content(), &mut Tables::default());
        if (1..=3).contains(&right.number) {
            return right;
        }
        match self.gather(file.content()) {
            Ok(found) => Answer {
                skipped: found.skipped,
                details: found.details,
                ..RIGHT.read(&Guarded::new(&canonical_of(&found)), lent)
            },
            Err(flaw) => Answer {
                number: flaw.fault.number(),
                place: flaw.at as u64,
                ..Answer::default()
            },
        }
    }

    fn write(&self, lent: &Lent, out: &mut Guarded<u8>) -> Written {
        RIGHT.write(lent, out)
    }
}

/// The canonical file of what was found: it reads as that mesh, so the second
/// program itself looks at the room and fills the tables.
fn canonical_of(found: &Found) -> Vec<u8> {
    let records = found.records();
    canonical(&Mesh::from_tables(&Tables {
        points: found.points.clone(),
        polygons: found.polygons.clone(),
        vertices: found.vertices.clone(),
        names: found.names.iter().map(|name| name.len() as u32).collect(),
        name_bytes: found.names.concat(),
        records: records.iter().flat_map(|record| record.words()).collect(),
    }))
}

/// What is said of a reader by the first fixed file on which it is found out.
pub fn found_in_fixed(reader: &dyn Library) -> Option<String> {
    let mut all = files::fixed().into_iter();
    all.find_map(|one| check::file(reader, &one.file).err())
}

/// The same by generated files.
pub fn found_in_generated(reader: &dyn Library) -> Option<String> {
    let mut all = (0..1_000).map(|number| files::generated(5, number));
    all.find_map(|one| check::file(reader, &one.file).err())
}

#[track_caller]
pub fn must_say(said: Option<String>) {
    let said = said.expect("the mistake was not found out");
    assert!(said.contains("the answer is"), "{said}");
}
