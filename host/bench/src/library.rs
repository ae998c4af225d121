//! The proved library over tables of the second program's kind, so that both
//! are given the same.

use lwo::lent;
use second::Tables;

/// Reads a file into tables and gives the number of the answer.
pub fn read(file: &[u8], tables: &mut Tables) -> u64 {
    let answer = lent::read(
        file,
        &mut tables.points,
        &mut tables.polygons,
        &mut tables.vertices,
        &mut tables.names,
        &mut tables.name_bytes,
        &mut tables.records,
    );
    answer.number
}

/// Writes the mesh of tables and gives the number of the answer.
pub fn write(tables: &Tables, out: &mut [u8]) -> u64 {
    let written = lent::write(
        &tables.points,
        &tables.polygons,
        &tables.vertices,
        &tables.names,
        &tables.name_bytes,
        &tables.records,
        out,
    );
    written.number
}
