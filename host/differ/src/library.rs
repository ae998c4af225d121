//! The library that is compared, and the proved one by the crate's two calls.

use lwo::lent::{self, LwoAnswer, LwoWritten};
use second::{Answer, Written};

use crate::guarded::Guarded;
use crate::lent::Lent;

/// A reader and writer over lent buffers. The proved library is one; the tests
/// of this crate have others, each wrong in one way, which must be found out.
pub trait Library {
    /// Reads a file into lent tables.
    fn read(&self, file: &Guarded<u8>, tables: &mut Lent) -> Answer;

    /// Writes the mesh of lent tables into lent output.
    fn write(&self, tables: &Lent, out: &mut Guarded<u8>) -> Written;
}

/// The proved library.
pub struct Proved;

impl Library for Proved {
    fn read(&self, file: &Guarded<u8>, tables: &mut Lent) -> Answer {
        answer_of(lent::read(
            file.content(),
            tables.points.content_mut(),
            tables.polygons.content_mut(),
            tables.vertices.content_mut(),
            tables.names.content_mut(),
            tables.name_bytes.content_mut(),
            tables.records.content_mut(),
        ))
    }

    fn write(&self, tables: &Lent, out: &mut Guarded<u8>) -> Written {
        written_of(lent::write(
            tables.points.content(),
            tables.polygons.content(),
            tables.vertices.content(),
            tables.names.content(),
            tables.name_bytes.content(),
            tables.records.content(),
            out.content_mut(),
        ))
    }
}

fn answer_of(answer: LwoAnswer) -> Answer {
    Answer {
        number: answer.number,
        place: answer.place,
        points: answer.points,
        polygons: answer.polygons,
        vertices: answer.vertices,
        names: answer.names,
        name_bytes: answer.name_bytes,
        skipped: answer.skipped,
        details: answer.details,
    }
}

fn written_of(written: LwoWritten) -> Written {
    Written {
        number: written.number,
        place: written.place,
        length: written.length,
    }
}
