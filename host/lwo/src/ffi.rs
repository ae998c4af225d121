//! The proved library as C sees it: `host/include/lwo.h` says the same. Every slice is a pointer and a length in elements.

/// The reader's answer.
#[repr(C)]
#[derive(Clone, Copy, Debug, PartialEq, Eq)]
pub struct LwoAnswer {
    /// The number in the table of refusals, 0 if the file is accepted.
    pub number: u64,
    /// The offset of the first byte of the header, item or string at fault, or of where it would
    /// begin; 0 if there is none or the fault is the whole file's.
    pub place: u64,
    /// The five needs, full on 0 and 16 and 0 else: points,
    pub points: u64,
    /// polygons,
    pub polygons: u64,
    /// vertices, summed over the polygons,
    pub vertices: u64,
    /// names, each with a surface record,
    pub names: u64,
    /// and bytes, summed over the names.
    pub name_bytes: u64,
    /// Top-level chunks that are not listed; full and 0 as the needs are.
    pub skipped: u64,
    /// Detail polygons, which are checked and not kept; full and 0 as the needs are.
    pub details: u64,
}

/// The writer's answer.
#[repr(C)]
#[derive(Clone, Copy, Debug, PartialEq, Eq)]
pub struct LwoWritten {
    /// The number in the table of refusals, 0 if the mesh is written.
    pub number: u64,
    /// The place, 0.
    pub place: u64,
    /// Bytes written on 0, bytes needed on 16, else 0.
    pub length: u64,
}

extern "C" {
    pub fn lwo_read(
        file: *const u8,
        file_length: usize,
        points: *mut u32,
        points_length: usize,
        polygons: *mut u32,
        polygons_length: usize,
        vertices: *mut u32,
        vertices_length: usize,
        names: *mut u32,
        names_length: usize,
        name_bytes: *mut u8,
        name_bytes_length: usize,
        records: *mut u32,
        records_length: usize,
    ) -> LwoAnswer;

    pub fn lwo_write(
        points: *const u32,
        points_length: usize,
        polygons: *const u32,
        polygons_length: usize,
        vertices: *const u32,
        vertices_length: usize,
        names: *const u32,
        names_length: usize,
        name_bytes: *const u8,
        name_bytes_length: usize,
        records: *const u32,
        records_length: usize,
        out: *mut u8,
        out_length: usize,
    ) -> LwoWritten;
}
