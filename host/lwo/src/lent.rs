//! The library's two functions over lent slices: the only code of this crate that is `unsafe`.
//!
//! An entry of several words is [`POINT_WORDS`](crate::POINT_WORDS),
//! [`POLYGON_WORDS`](crate::POLYGON_WORDS) or [`RECORD_WORDS`](crate::RECORD_WORDS) long, as
//! [`Tables`](crate::Tables) tells. The functions have no condition on what they are lent.

use crate::ffi::{lwo_read, lwo_write};
pub use crate::ffi::{LwoAnswer, LwoWritten};

/// Reads a file into lent tables.
///
/// On 0 the place is 0, needs and counts are full, the front of each table holds the mesh and
/// the rest is unchanged. On 16 needs and counts are full; on every other refusal they are 0.
/// A refusal leaves every table unchanged.
///
/// ```
/// // The empty object needs no room.
/// let file = b"FORM\0\0\0\x04LWO2";
/// let answer = lwo::lent::read(file, &mut [], &mut [], &mut [], &mut [], &mut [], &mut []);
/// assert_eq!((answer.number, answer.points), (0, 0));
/// ```
pub fn read(
    file: &[u8],
    points: &mut [u32],
    polygons: &mut [u32],
    vertices: &mut [u32],
    names: &mut [u32],
    name_bytes: &mut [u8],
    records: &mut [u32],
) -> LwoAnswer {
    // SAFETY: `lwo_read` has no precondition beyond live slices that do not overlap. Each pointer
    // and length are those of one slice, borrowed until the call returns; the tables are borrowed
    // mutably, so none overlaps another or the file.
    unsafe {
        lwo_read(
            file.as_ptr(),
            file.len(),
            points.as_mut_ptr(),
            points.len(),
            polygons.as_mut_ptr(),
            polygons.len(),
            vertices.as_mut_ptr(),
            vertices.len(),
            names.as_mut_ptr(),
            names.len(),
            name_bytes.as_mut_ptr(),
            name_bytes.len(),
            records.as_mut_ptr(),
            records.len(),
        )
    }
}

/// Writes the mesh that the tables hold, taken whole, as one canonical LWO2 file.
///
/// The length is that of the bytes written on 0, of the bytes needed on 16, else 0. Output past
/// the bytes written is unchanged, and a refusal leaves all of it unchanged.
///
/// ```
/// // The file of the empty mesh has 12 bytes.
/// let mut out = [7; 14];
/// let written = lwo::lent::write(&[], &[], &[], &[], &[], &[], &mut out);
/// assert_eq!((written.number, written.length), (0, 12));
/// assert_eq!(&out, b"FORM\0\0\0\x04LWO2\x07\x07");
/// ```
pub fn write(
    points: &[u32],
    polygons: &[u32],
    vertices: &[u32],
    names: &[u32],
    name_bytes: &[u8],
    records: &[u32],
    out: &mut [u8],
) -> LwoWritten {
    // SAFETY: `lwo_write` has no precondition beyond live slices, and an output that overlaps
    // none of the tables. Each pointer and length are those of one slice, borrowed until the call
    // returns; the tables are only read, and the output is borrowed mutably.
    unsafe {
        lwo_write(
            points.as_ptr(),
            points.len(),
            polygons.as_ptr(),
            polygons.len(),
            vertices.as_ptr(),
            vertices.len(),
            names.as_ptr(),
            names.len(),
            name_bytes.as_ptr(),
            name_bytes.len(),
            records.as_ptr(),
            records.len(),
            out.as_mut_ptr(),
            out.len(),
        )
    }
}

#[cfg(test)]
mod tests {
    use super::*;

    /// A file of one point.
    const ONE_POINT: &[u8] = b"FORM\0\0\0\x18LWO2PNTS\0\0\0\x0c\
        \x3f\x80\0\0\x40\0\0\0\xc0\x40\0\0";

    #[test]
    fn words_past_the_mesh_are_left_alone() {
        let mut points = [7; 5];
        let (mut words, mut bytes) = ([[8; 4]; 4], [9; 4]);
        let [polygons, vertices, names, records] = &mut words;
        let answer = read(
            ONE_POINT,
            &mut points,
            polygons,
            vertices,
            names,
            &mut bytes,
            records,
        );
        assert_eq!((answer.number, answer.place), (0, 0));
        assert_eq!(points, [0x3f80_0000, 0x4000_0000, 0xc040_0000, 7, 7]);
        assert_eq!((words, bytes), ([[8; 4]; 4], [9; 4]));
    }

    #[test]
    fn part_of_an_entry_is_no_room() {
        let mut points = [7; 2];
        let answer = read(
            ONE_POINT,
            &mut points,
            &mut [],
            &mut [],
            &mut [],
            &mut [],
            &mut [],
        );
        assert_eq!((answer.number, answer.place, answer.points), (16, 0, 1));
        assert_eq!(points, [7; 2]);
    }

    /// The point's last coordinate becomes an infinity.
    #[test]
    fn a_refusal_leaves_the_tables_alone() {
        let mut file = ONE_POINT.to_vec();
        file[28..].copy_from_slice(&f32::INFINITY.to_be_bytes());
        let (mut words, mut bytes) = ([[8; 4]; 5], [9; 4]);
        let [points, polygons, vertices, names, records] = &mut words;
        let answer = read(
            &file, points, polygons, vertices, names, &mut bytes, records,
        );
        assert_eq!((answer.number, answer.place, answer.points), (7, 28, 0));
        assert_eq!((words, bytes), ([[8; 4]; 5], [9; 4]));
    }

    #[test]
    fn an_output_too_short_is_left_alone() {
        let mut out = [7; 11];
        let written = write(&[], &[], &[], &[], &[], &[], &mut out);
        let want = LwoWritten {
            number: 16,
            place: 0,
            length: 12,
        };
        assert_eq!((written, out), (want, [7; 11]));
    }

    #[test]
    fn part_of_an_entry_is_not_a_mesh() {
        let mut out = [7; 12];
        let written = write(&[0; 2], &[], &[], &[], &[], &[], &mut out);
        let want = LwoWritten {
            number: 17,
            place: 0,
            length: 0,
        };
        assert_eq!((written, out), (want, [7; 12]));
    }
}
