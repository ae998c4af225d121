//! Writing a mesh: "The writer: 17, 18, 16."

use std::collections::HashSet;

use crate::canonical::{canonical_length, put_canonical};
use crate::found::{FACE, PATCH, POINT_WORDS, POLYGON_WORDS};
use crate::items::is_finite;
use crate::limits::{FILE_BYTES, HIGHEST_TAGGED, LWO2_VERTICES, NAME_BYTES, TABLE_ENTRIES};
use crate::reader::NO_ROOM;
use crate::surface::{Record, RECORD_WORDS, UNDEFINED};
use crate::tables::Tables;

/// 17: "writer: not a mesh".
pub const NOT_A_MESH: u64 = 17;

/// 18: "writer: canonical file too long".
pub const TOO_LONG: u64 = 18;

/// "The writer answers a number, place 0 and a length: bytes written on 0,
/// bytes needed on 16, else 0".
#[derive(Clone, Copy, Debug, PartialEq, Eq, Default)]
pub struct Written {
    pub number: u64,
    pub place: u64,
    pub length: u64,
}

/// Writes the mesh that the tables hold as one canonical LWO2 file. "output
/// past that length is unchanged. Every refusal leaves every ... output buffer
/// unchanged."
pub fn write(tables: &Tables, out: &mut [u8]) -> Written {
    if !is_mesh(tables) {
        return answer(NOT_A_MESH, 0);
    }
    let length = canonical_length(tables);
    if length > FILE_BYTES as u64 {
        return answer(TOO_LONG, 0);
    }
    if length > out.len() as u64 {
        return answer(NO_ROOM, length);
    }
    put_canonical(tables, &mut out[..length as usize]);
    answer(0, length)
}

fn answer(number: u64, length: u64) -> Written {
    Written {
        number,
        place: 0,
        length,
    }
}

/// Whether the tables, taken whole, are a mesh: "Not a mesh (17): a table with
/// part of an entry or over 16,777,216 entries; counts that don't agree; a
/// kind, vertex count (1 to 1,023), vertex number, defined or sides number
/// outside its range; a surface above the name count or 65,536; a name over
/// 255 bytes, with a zero byte, or equal to an earlier one; a float not
/// finite; an undefined record with other than the missing values, by bits."
/// #111: "A part above the name count or 65,536 is 17."
pub fn is_mesh(tables: &Tables) -> bool {
    entries_are_whole(tables)
        && entries_are_few(tables)
        && counts_agree(tables)
        && tables.points.iter().all(|&bits| is_finite(bits))
        && polygons_are_good(tables)
        && vertices_are_good(tables)
        && names_are_good(tables)
        && records_are_good(tables)
}

fn entries_are_whole(tables: &Tables) -> bool {
    tables.points.len().is_multiple_of(POINT_WORDS)
        && tables.polygons.len().is_multiple_of(POLYGON_WORDS)
        && tables.records.len().is_multiple_of(RECORD_WORDS)
}

fn entries_are_few(tables: &Tables) -> bool {
    [
        tables.point_count(),
        tables.polygon_count(),
        tables.vertices.len(),
        tables.names.len(),
        tables.name_bytes.len(),
        tables.record_count(),
    ]
    .iter()
    .all(|&entries| entries <= TABLE_ENTRIES)
}

/// The sums are taken in a wide type, so they cannot wrap round.
fn counts_agree(tables: &Tables) -> bool {
    let vertices: u64 = polygon_entries(tables)
        .iter()
        .map(|entry| u64::from(entry[1]))
        .sum();
    let name_bytes: u64 = tables.names.iter().map(|&length| u64::from(length)).sum();
    vertices == tables.vertices.len() as u64
        && name_bytes == tables.name_bytes.len() as u64
        && tables.record_count() == tables.names.len()
}

fn polygon_entries(tables: &Tables) -> &[[u32; POLYGON_WORDS]] {
    let (entries, _) = tables.polygons.as_chunks::<POLYGON_WORDS>();
    entries
}

fn polygons_are_good(tables: &Tables) -> bool {
    let highest = (tables.names.len() as u32).min(HIGHEST_TAGGED);
    polygon_entries(tables)
        .iter()
        .all(|&[kind, count, surface, part]| {
            (kind == FACE || kind == PATCH)
                && (1..=LWO2_VERTICES).contains(&count)
                && surface <= highest
                && part <= highest
        })
}

fn vertices_are_good(tables: &Tables) -> bool {
    let points = tables.point_count() as u32;
    tables.vertices.iter().all(|&vertex| vertex < points)
}

/// The counts must agree, so that the lengths cut the bytes exactly.
fn names_are_good(tables: &Tables) -> bool {
    let mut earlier: HashSet<&[u8]> = HashSet::with_capacity(tables.names.len());
    let mut rest = &tables.name_bytes[..];
    for &length in &tables.names {
        let (name, after) = rest.split_at(length as usize);
        rest = after;
        if name.len() > NAME_BYTES || name.contains(&0) || !earlier.insert(name) {
            return false;
        }
    }
    true
}

fn records_are_good(tables: &Tables) -> bool {
    let (entries, _) = tables.records.as_chunks::<RECORD_WORDS>();
    entries.iter().map(Record::from_words).all(record_is_good)
}

fn record_is_good(record: Record) -> bool {
    match record.defined {
        0 => record == UNDEFINED,
        1 => {
            (record.sides == 1 || record.sides == 3)
                && record.levels().iter().all(|&bits| is_finite(bits))
        }
        _ => false,
    }
}
