//! "Numbers that bound the work" of document 01, and the bounds that its
//! section on the canonical file states.

/// "File read or written: at most 16,777,216 bytes."
pub const FILE_BYTES: usize = 16_777_216;

/// "Name: at most 255 bytes."
pub const NAME_BYTES: usize = 255;

/// "Vertices per polygon: 1 to 200 in LWOB, 1 to 1,023 in LWO2."
pub const LWOB_VERTICES: u32 = 200;

/// The same bound for LWO2, and for the writer, which writes LWO2.
pub const LWO2_VERTICES: u32 = 1_023;

/// "Points in LWOB: at most 65,536."
pub const LWOB_POINTS: usize = 65_536;

/// "The program's input: at most 65,536 bytes."
pub const PROGRAM_BYTES: usize = 65_536;

/// "Not a mesh (17): a table with part of an entry or over 16,777,216 entries".
pub const TABLE_ENTRIES: usize = 16_777_216;

/// "a surface above the name count or 65,536" is not a mesh, because a tag is
/// a U2 from 0. #111: "A part above the name count or 65,536 is 17."
pub const HIGHEST_TAGGED: u32 = 65_536;

/// The first index that a VX holds in four bytes (source 002); since #107 one
/// below it may not have them.
pub const LONG_INDEX: u32 = 0xff00;
