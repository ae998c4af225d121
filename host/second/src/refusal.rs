//! What can be wrong with a file, and what is told about it.
//!
//! A fault is kept finer than its number. Beside the place that is told, "the
//! offset of the first byte of the header, item or string at fault", stands
//! the offset of the top-level chunk that it lies in, which is not told: the
//! place of an item that is missing altogether can be where the next chunk
//! begins, so the chunk cannot be had from it.

/// One thing that is wrong, each with one number: those up to 15 are of
/// document 01's table, 19 and 20 of request #101, 22 of request #107.
#[derive(Clone, Copy, Debug, PartialEq, Eq, Hash)]
pub enum Fault {
    /// 1: "file too long".
    FileTooLong,
    /// 2: "under 12 bytes".
    Under12Bytes,
    /// 2: "not FORM".
    NotForm,
    /// 2: "type neither LWOB nor LWO2".
    UnknownKind,
    /// 3: "FORM length is not file length less 8".
    FormLength,
    /// 4: "header cut".
    HeaderCut,
    /// 4: "tag byte outside 32..126".
    TagByte,
    /// 4: "length past the parent's end".
    LengthPastEnd,
    /// 4: "pad byte missing".
    PadMissing,
    /// 4: "pad byte ... not zero".
    PadNotZero,
    /// 5: "something that must come earlier is missing", here PNTS, in LWO2
    /// one since the last LAYR.
    PointsMissing,
    /// 5: the same, here LWOB's SRFS.
    NamesMissing,
    /// 5: the same, here LWO2's POLS before PTAG, one since the last LAYR.
    PolygonsMissing,
    /// 5: "a single chunk comes twice".
    ChunkTwice,
    /// 6: "wrong body length", where the length is fixed ("SIDE's is two"), or
    /// PNTS is not whole points.
    BodyLength,
    /// 6: "LWOB PNTS over 65,536 points".
    TooManyPoints,
    /// 6: "bytes left over" after the items of a body without fixed length.
    BytesLeftOver,
    /// 19: "an item (no string) cut by its chunk's end".
    ItemCut,
    /// 20: "a string without terminator".
    StringTerminator,
    /// 20: a string without "zero pad".
    StringPad,
    /// 22: the long form of "an index below 65,280".
    LongIndex,
    /// 7: "coordinate or level not finite".
    NotFinite,
    /// 8: "vertex count not allowed".
    VertexCount,
    /// 9: "vertex number not below the latest point list's length".
    VertexNumber,
    /// 10: "surface number ... names nothing" (LWOB).
    SurfaceNumber,
    /// 10: "tag names nothing" (LWO2), a surface's or a part's.
    TagNumber,
    /// 11: "polygon number not below the latest POLS's count".
    PolygonNumber,
    /// 12: "POLS type neither FACE nor PTCH".
    PolygonType,
    /// 13: "name over 255 bytes".
    NameTooLong,
    /// 13: name "equal to an earlier name there".
    NameTwice,
    /// 14: "a detail polygon with a negative surface number".
    DetailNegative,
    /// 15: "SIDE neither 1 nor 3".
    SideValue,
    /// 15: "BLOK empty".
    BlockEmpty,
    /// 15: BLOK "with another first sub-chunk".
    BlockHeader,
}

impl Fault {
    /// The number that is told: "Number 6 stays for wrong body lengths (SIDE's
    /// is two), an item (no string) cut by its chunk's end gets 19, a string
    /// without terminator or zero pad gets 20." And #107: "Refusals: 22".
    pub fn number(self) -> u64 {
        match self {
            Fault::FileTooLong => 1,
            Fault::Under12Bytes | Fault::NotForm | Fault::UnknownKind => 2,
            Fault::FormLength => 3,
            Fault::HeaderCut
            | Fault::TagByte
            | Fault::LengthPastEnd
            | Fault::PadMissing
            | Fault::PadNotZero => 4,
            Fault::PointsMissing
            | Fault::NamesMissing
            | Fault::PolygonsMissing
            | Fault::ChunkTwice => 5,
            Fault::BodyLength | Fault::TooManyPoints | Fault::BytesLeftOver => 6,
            Fault::NotFinite => 7,
            Fault::VertexCount => 8,
            Fault::VertexNumber => 9,
            Fault::SurfaceNumber | Fault::TagNumber => 10,
            Fault::PolygonNumber => 11,
            Fault::PolygonType => 12,
            Fault::NameTooLong | Fault::NameTwice => 13,
            Fault::DetailNegative => 14,
            Fault::SideValue | Fault::BlockEmpty | Fault::BlockHeader => 15,
            Fault::ItemCut => 19,
            Fault::StringTerminator | Fault::StringPad => 20,
            Fault::LongIndex => 22,
        }
    }
}

/// A fault and the offset of the first byte of the header, item or string at
/// fault. The readers of items and bodies answer this; they need not know
/// their chunk.
#[derive(Clone, Copy, Debug, PartialEq, Eq)]
pub struct Flaw {
    pub fault: Fault,
    pub at: usize,
}

impl Flaw {
    pub fn new(fault: Fault, at: usize) -> Flaw {
        Flaw { fault, at }
    }
}

/// A file that the rules refuse.
#[derive(Clone, Copy, Debug, PartialEq, Eq)]
pub struct Refusal {
    pub fault: Fault,
    /// The offset of the tag of the top-level chunk at fault, 0 where none is.
    pub chunk: u64,
    place: u64,
}

impl Refusal {
    /// A fault of the file as a whole: numbers 1, 2 and 3 have place 0.
    pub fn of_file(fault: Fault) -> Refusal {
        Refusal {
            fault,
            chunk: 0,
            place: 0,
        }
    }

    /// A flaw in the chunk whose tag lies at `chunk`.
    pub fn in_chunk(chunk: usize, flaw: Flaw) -> Refusal {
        Refusal {
            fault: flaw.fault,
            chunk: chunk as u64,
            place: flaw.at as u64,
        }
    }

    /// The number that is told.
    pub fn number(&self) -> u64 {
        self.fault.number()
    }

    /// The place that is told: "the offset of the first byte of the header,
    /// item or string at fault". For an item or string that is missing
    /// altogether it is where its first byte would lie, the end of its body,
    /// and so it may be the file's length.
    pub fn place(&self) -> u64 {
        self.place
    }
}
