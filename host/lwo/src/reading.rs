//! A file that was read: its mesh, and what the file held.

use std::fs::File;
use std::io::Read;
use std::path::Path;

use crate::counts::Counts;
use crate::mesh::Mesh;
use crate::read_error::ReadError;
use crate::refusal::Refusal;
use crate::refusal_kind::RefusalKind;
use crate::tables::Tables;
use crate::FILE_LIMIT;

/// The mesh of a file and the counts of the file.
#[derive(Clone, Debug, PartialEq, Eq)]
#[non_exhaustive]
pub struct Reading {
    /// The mesh that the rules give the file.
    pub mesh: Mesh,
    /// What the file holds; the skipped chunks and the details are not in the mesh.
    pub counts: Counts,
}

impl Reading {
    /// Reads a file.
    ///
    /// ```
    /// let reading = lwo::Reading::of(b"FORM\0\0\0\x0cLWO2NOTE\0\0\0\0")?;
    /// assert_eq!(reading.counts.skipped, 1);
    /// assert_eq!(reading.mesh.polygons().len(), 0);
    /// # Ok::<(), lwo::Refusal>(())
    /// ```
    pub fn of(file: &[u8]) -> Result<Reading, Refusal> {
        // Most files are read in one call, into tables as long as such a file mostly needs; where
        // they are too short, the answer says how long they have to be.
        let mut tables = Tables::expected(file.len());
        let mut answer = tables.read(file);
        if answer.number == RefusalKind::NoRoom.number() {
            tables = Tables::sized(&Counts::from(answer));
            answer = tables.read(file);
        }
        if let Some(refusal) = Refusal::answered(answer.number, answer.place) {
            return Err(refusal);
        }
        let counts = Counts::from(answer);
        tables.cut(&counts);
        Ok(Reading {
            mesh: Mesh::holding(tables),
            counts,
        })
    }

    /// Reads a file from a stream, to its end or to where it is too long.
    ///
    /// ```
    /// let reading = lwo::Reading::from_reader(&b"FORM\0\0\0\x04LWO2"[..])?;
    /// assert_eq!(reading.counts.points, 0);
    /// # Ok::<(), lwo::ReadError>(())
    /// ```
    pub fn from_reader(reader: impl Read) -> Result<Reading, ReadError> {
        let mut file = Vec::new();
        // One byte past the longest file is enough to be refused for it.
        reader.take(FILE_LIMIT as u64 + 1).read_to_end(&mut file)?;
        Ok(Reading::of(&file)?)
    }

    /// Opens and reads the file of this name.
    pub fn open(path: impl AsRef<Path>) -> Result<Reading, ReadError> {
        Reading::from_reader(File::open(path)?)
    }
}
