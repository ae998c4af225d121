//! Reading a file: "1, 2, 3; then chunks in file order ... 16 is last."

use crate::chunks;
use crate::found::Found;
use crate::limits::FILE_BYTES;
use crate::mesh::Mesh;
use crate::refusal::{Fault, Flaw, Refusal};
use crate::surface::{Record, RECORD_WORDS};
use crate::tables::Tables;
use crate::{lwo2, lwob};

/// The number of NO ROOM, which is no fault of the file.
pub const NO_ROOM: u64 = 16;

/// "An answer holds the number (0 accepted), the place, five needs (points,
/// polygons, vertices, names, name bytes), the skipped count and the detail
/// count."
#[derive(Clone, Copy, Debug, PartialEq, Eq, Default)]
pub struct Answer {
    pub number: u64,
    pub place: u64,
    pub points: u64,
    pub polygons: u64,
    pub vertices: u64,
    pub names: u64,
    pub name_bytes: u64,
    pub skipped: u64,
    pub details: u64,
}

/// The two kinds of file.
#[derive(Clone, Copy)]
enum Kind {
    Lwob,
    Lwo2,
}

/// Reads a file into lent tables. "On 0 the place is 0, needs and counts are
/// full, the front of each table holds the mesh and the rest is unchanged. On
/// 16 needs and counts are full; on every other refusal they are 0. ... Every
/// refusal leaves every lent table ... unchanged."
pub fn read(file: &[u8], tables: &mut Tables) -> Answer {
    let found = match gather(file) {
        Ok(found) => found,
        Err(refusal) => return refused(&refusal),
    };
    let mut answer = full(&found);
    if has_room(&answer, tables) {
        fill(&found, tables);
    } else {
        answer.number = NO_ROOM;
    }
    answer
}

/// The mesh that the rules give the file, with the skipped and the detail
/// count, or the one refusal (never 16) that stands against it.
pub fn rules(file: &[u8]) -> Result<(Mesh, u64, u64), Refusal> {
    let found = gather(file)?;
    Ok((Mesh::from_found(&found), found.skipped, found.details))
}

/// Walks over the file once and gathers what it holds, up to the first fault.
fn gather(file: &[u8]) -> Result<Found<'_>, Refusal> {
    let kind = judge_form(file).map_err(Refusal::of_file)?;
    let mut found = Found::default();
    let mut at = 12;
    while at < file.len() {
        at = take_chunk(file, kind, at, &mut found).map_err(|flaw| Refusal::in_chunk(at, flaw))?;
    }
    Ok(found)
}

/// Numbers 1, 2 and 3.
fn judge_form(file: &[u8]) -> Result<Kind, Fault> {
    if file.len() > FILE_BYTES {
        return Err(Fault::FileTooLong);
    }
    let Some(head) = file.first_chunk::<12>() else {
        return Err(Fault::Under12Bytes);
    };
    let [f, o, r, m, a, b, c, d, kind @ ..] = *head;
    if &[f, o, r, m] != b"FORM" {
        return Err(Fault::NotForm);
    }
    let kind = match &kind {
        b"LWOB" => Kind::Lwob,
        b"LWO2" => Kind::Lwo2,
        _ => return Err(Fault::UnknownKind),
    };
    if u32::from_be_bytes([a, b, c, d]) as usize != file.len() - 8 {
        return Err(Fault::FormLength);
    }
    Ok(kind)
}

/// Judges and takes the chunk at `at`, and answers where the next one lies.
/// "Chunks tile the FORM exactly after the type".
fn take_chunk<'a>(
    file: &'a [u8],
    kind: Kind,
    at: usize,
    found: &mut Found<'a>,
) -> Result<usize, Flaw> {
    let chunk = chunks::chunk(file, at, file.len())?;
    match kind {
        Kind::Lwob => lwob::take(file, &chunk, found)?,
        Kind::Lwo2 => lwo2::take(file, &chunk, found)?,
    }
    Ok(chunk.next)
}

fn refused(refusal: &Refusal) -> Answer {
    Answer {
        number: refusal.number(),
        place: refusal.place(),
        ..Answer::default()
    }
}

fn full(found: &Found) -> Answer {
    Answer {
        number: 0,
        place: 0,
        points: found.point_count() as u64,
        polygons: found.polygon_count() as u64,
        vertices: found.vertices.len() as u64,
        names: found.names.len() as u64,
        name_bytes: found.name_bytes() as u64,
        skipped: found.skipped,
        details: found.details,
    }
}

/// Whether every table has room: "The records table needs one entry per name."
fn has_room(needs: &Answer, tables: &Tables) -> bool {
    tables.point_count() as u64 >= needs.points
        && tables.polygon_count() as u64 >= needs.polygons
        && tables.vertices.len() as u64 >= needs.vertices
        && tables.names.len() as u64 >= needs.names
        && tables.name_bytes.len() as u64 >= needs.name_bytes
        && tables.record_count() as u64 >= needs.names
}

/// Copies the mesh to the front of each table.
fn fill(found: &Found, tables: &mut Tables) {
    tables.points[..found.points.len()].copy_from_slice(&found.points);
    tables.polygons[..found.polygons.len()].copy_from_slice(&found.polygons);
    tables.vertices[..found.vertices.len()].copy_from_slice(&found.vertices);
    let mut bytes = 0;
    for (number, name) in found.names.iter().enumerate() {
        tables.names[number] = name.len() as u32;
        tables.name_bytes[bytes..bytes + name.len()].copy_from_slice(name);
        bytes += name.len();
    }
    fill_records(&found.records(), &mut tables.records);
}

fn fill_records(records: &[Record], table: &mut [u32]) {
    for (entry, record) in table.chunks_exact_mut(RECORD_WORDS).zip(records) {
        entry.copy_from_slice(&record.words());
    }
}
