//! What a refusal says, by its number in the table of refusals.

/// What is wrong, by the number in the table of refusals; `docs/REFUSALS.md` has that table. More
/// numbers will come, so a `match` needs an arm for others.
#[derive(Clone, Copy, Debug, PartialEq, Eq, PartialOrd, Ord, Hash)]
#[non_exhaustive]
pub enum RefusalKind {
    /// The file is too long.
    FileTooLong = 1,
    /// The file is no LightWave object of the kinds LWOB and LWO2.
    NotAnObject = 2,
    /// The length of the FORM is not the file's length less 8.
    FormLength = 3,
    /// The header or the pad byte of a chunk is damaged.
    Chunk = 4,
    /// Something that must come earlier, in LWO2 in the same layer, is missing; or a single chunk
    /// comes twice.
    Order = 5,
    /// The body of a chunk has the wrong length.
    Body = 6,
    /// A coordinate or level is not finite.
    NotFinite = 7,
    /// A polygon's vertex count is not allowed.
    VertexCount = 8,
    /// A vertex names no point of the latest point list.
    VertexNumber = 9,
    /// A surface number or tag names nothing.
    Surface = 10,
    /// A tag is given to a polygon that the latest polygon list does not have.
    PolygonNumber = 11,
    /// The type of a polygon list is neither FACE nor PTCH.
    PolygonType = 12,
    /// A name in the list of names is too long, or there twice.
    Name = 13,
    /// A detail polygon has a negative surface number.
    Detail = 14,
    /// The sides of a surface or the beginning of a block are not allowed.
    SideOrBlock = 15,
    /// A table or the output is too short.
    NoRoom = 16,
    /// The tables do not hold a mesh.
    NotAMesh = 17,
    /// The canonical file would be too long.
    OutTooLong = 18,
    /// A number or type is cut by the end of its chunk, or missing.
    ItemCut = 19,
    /// A name or other string has no zero byte at its end, or not the second one that makes it
    /// even.
    StringOpen = 20,
    /// An index of LWO2 that is below 65,280 is written in four bytes instead of two.
    LongIndex = 22,
}

use RefusalKind as K;

/// Every kind in the order of its number, with its sentence. Not every number has a kind.
const TABLE: [(RefusalKind, &str); 21] = [
    (K::FileTooLong, "the file is longer than 16,777,216 bytes"),
    (
        K::NotAnObject,
        "this is not a LightWave object file of the kinds LWOB and LWO2",
    ),
    (
        K::FormLength,
        "the length in the first bytes is not the file's own; the file was cut, or something was \
         added",
    ),
    (
        K::Chunk,
        "a chunk is damaged: its header is cut, its tag is not plain text, it is longer than what \
         holds it, or its pad byte is missing or not zero",
    ),
    (
        K::Order,
        "something that must come before this chunk is missing, or a chunk that may come only \
         once comes twice",
    ),
    (K::Body, "the body of a chunk has the wrong length"),
    (
        K::NotFinite,
        "a coordinate or a surface level is not a finite number",
    ),
    (
        K::VertexCount,
        "a polygon's vertex count is not allowed: it is 1 to 200 in LWOB, 1 to 1,023 in LWO2",
    ),
    (
        K::VertexNumber,
        "a polygon names a point that the latest point list does not have",
    ),
    (
        K::Surface,
        "a polygon is given a surface number or tag that names nothing",
    ),
    (
        K::PolygonNumber,
        "a tag is given to a polygon that the latest polygon list does not have",
    ),
    (
        K::PolygonType,
        "the type of a polygon list is neither FACE nor PTCH",
    ),
    (
        K::Name,
        "a name in the list of names is longer than 255 bytes, or is there twice",
    ),
    (K::Detail, "a detail polygon has a negative surface number"),
    (
        K::SideOrBlock,
        "the sides of a surface are neither 1 nor 3, or a block of it does not begin with IMAP, \
         PROC, GRAD or SHDR",
    ),
    (
        K::NoRoom,
        "there is no room: a table or the output is too short",
    ),
    (K::NotAMesh, "the tables do not hold a mesh"),
    (
        K::OutTooLong,
        "the canonical file would be longer than 16,777,216 bytes",
    ),
    (
        K::ItemCut,
        "a number or type is cut by the end of its chunk, or missing",
    ),
    (
        K::StringOpen,
        "a name or other string has no zero byte at its end, or not the second one that makes it \
         even",
    ),
    (
        K::LongIndex,
        "an index below 65,280 is written in four bytes instead of two",
    ),
];

impl RefusalKind {
    /// The number in the table of refusals.
    ///
    /// ```
    /// assert_eq!(lwo::RefusalKind::VertexNumber.number(), 9);
    /// ```
    pub fn number(self) -> u64 {
        self as u64
    }

    /// The kind of this number, if the table of refusals has it; 0, accepted, is none.
    ///
    /// ```
    /// use lwo::RefusalKind;
    ///
    /// assert_eq!(RefusalKind::from_number(9), Some(RefusalKind::VertexNumber));
    /// assert_eq!(RefusalKind::from_number(0), None);
    /// ```
    pub fn from_number(number: u64) -> Option<RefusalKind> {
        RefusalKind::all().find(|kind| kind.number() == number)
    }

    /// Every kind, in the order of the numbers.
    pub fn all() -> impl ExactSizeIterator<Item = RefusalKind> {
        TABLE.iter().map(|&(kind, _)| kind)
    }

    /// What it means, as a sentence without a full stop.
    pub fn sentence(self) -> &'static str {
        let row = TABLE.iter().find(|&&(kind, _)| kind == self);
        let (_, sentence) = row.expect("every kind is in the table");
        sentence
    }
}

#[cfg(test)]
mod tests {
    use super::*;
    use std::collections::HashSet;

    #[test]
    fn the_table_is_in_the_order_of_the_numbers() {
        let numbers = RefusalKind::all().map(RefusalKind::number);
        assert!(numbers.eq((1..=20).chain([22])));
    }

    #[test]
    fn every_number_has_its_kind_and_its_own_sentence() {
        let sentences: HashSet<&str> = RefusalKind::all().map(RefusalKind::sentence).collect();
        assert_eq!(sentences.len(), RefusalKind::all().len());
        for kind in RefusalKind::all() {
            assert_eq!(RefusalKind::from_number(kind.number()), Some(kind));
        }
        for number in [0, 21, 23, u64::MAX] {
            assert_eq!(RefusalKind::from_number(number), None);
        }
    }

    /// One word of each line of the table of refusals, so that no sentence stands at another's
    /// number.
    #[test]
    fn the_sentences_are_in_the_order_of_the_table() {
        let words = [
            "file is longer",
            "not a LightWave object",
            "length in the first",
            "pad byte",
            "come before",
            "wrong length",
            "finite",
            "vertex count",
            "point list",
            "names nothing",
            "latest polygon list",
            "FACE nor PTCH",
            "255 bytes",
            "detail polygon",
            "sides",
            "no room",
            "not hold a mesh",
            "canonical file",
            "cut by the end",
            "zero byte",
            "four bytes",
        ];
        assert_eq!(words.len(), RefusalKind::all().len());
        for (kind, word) in RefusalKind::all().zip(words) {
            assert!(kind.sentence().contains(word), "{kind:?}");
        }
    }
}
