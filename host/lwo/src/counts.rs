//! How much of everything a file holds.

use crate::ffi::LwoAnswer;
use crate::refusal::Refusal;
use crate::refusal_kind::RefusalKind;
use crate::tables::Tables;

/// What a file that the rules accept holds: the five counts of its mesh, and two of the file.
#[derive(Clone, Copy, Debug, Default, PartialEq, Eq, Hash)]
pub struct Counts {
    /// Points of the mesh.
    pub points: u64,
    /// Polygons of the mesh: faces and patches.
    pub polygons: u64,
    /// Vertices, summed over the polygons.
    pub vertices: u64,
    /// Names, each with one surface record.
    pub names: u64,
    /// Bytes of the names, summed.
    pub name_bytes: u64,
    /// Top-level chunks that the rules do not list; they are not read.
    pub skipped: u64,
    /// Detail polygons of an LWOB file; they are checked and not kept.
    pub details: u64,
}

impl Counts {
    /// Judges a whole file by the rules and counts what it holds, without keeping any of it.
    ///
    /// ```
    /// let file = b"FORM\0\0\0\x0cLWO2NOTE\0\0\0\0";
    /// let counts = lwo::Counts::of(file)?;
    /// assert_eq!((counts.points, counts.skipped), (0, 1));
    /// # Ok::<(), lwo::Refusal>(())
    /// ```
    pub fn of(file: &[u8]) -> Result<Counts, Refusal> {
        let answer = Tables::default().read(file);
        match Refusal::answered(answer.number, answer.place) {
            // Empty tables have room for nothing, so NO ROOM is said of every file with a mesh
            // that is not empty; the needs are full then too.
            Some(refusal) if refusal.kind != RefusalKind::NoRoom => Err(refusal),
            _ => Ok(Counts::from(answer)),
        }
    }
}

impl From<LwoAnswer> for Counts {
    fn from(answer: LwoAnswer) -> Counts {
        Counts {
            points: answer.points,
            polygons: answer.polygons,
            vertices: answer.vertices,
            names: answer.names,
            name_bytes: answer.name_bytes,
            skipped: answer.skipped,
            details: answer.details,
        }
    }
}
