//! Chunks and sub-chunks by their headers: for what is told of a file, not for what is read from
//! it.

/// Where the first chunk begins, behind FORM, its length and the type.
const FIRST: usize = 12;

/// A chunk or sub-chunk whose header is whole.
#[derive(Clone, Copy, Debug, PartialEq, Eq)]
pub struct Chunk {
    pub tag: [u8; 4],
    /// The offset of the tag.
    pub start: usize,
    /// The offsets of the body's first byte, and of what follows its last one.
    pub body: usize,
    pub end: usize,
}

impl Chunk {
    /// The length of the body.
    pub fn length(&self) -> usize {
        self.end - self.body
    }

    /// The offset of what follows the chunk: an odd body has a pad byte behind it.
    pub fn next(&self) -> usize {
        self.end + self.length() % 2
    }
}

/// The type of a file, `LWOB` or `LWO2`; nothing where the file is too short for one.
pub fn kind(file: &[u8]) -> &[u8] {
    file.get(8..FIRST).unwrap_or_default()
}

/// The top-level chunks in file order, the last of them one whose length goes past the file's
/// end, if there is such a one.
pub fn chunks(file: &[u8]) -> impl Iterator<Item = Chunk> + '_ {
    walk::<4>(file, FIRST)
}

/// The sub-chunks from an offset on, likewise. The bytes are those of the file up to the end of
/// what holds them.
pub fn sub_chunks(bytes: &[u8], from: usize) -> impl Iterator<Item = Chunk> + '_ {
    walk::<2>(bytes, from)
}

/// A tag, and a length of so many bytes, are a header.
fn walk<const LENGTH: usize>(bytes: &[u8], from: usize) -> impl Iterator<Item = Chunk> + '_ {
    let mut next = from;
    std::iter::from_fn(move || {
        let start = next;
        let (tag, rest) = bytes.get(start..)?.split_first_chunk::<4>()?;
        let length = rest.first_chunk::<LENGTH>()?;
        let body = start + tag.len() + length.len();
        let chunk = Chunk {
            tag: *tag,
            start,
            body,
            end: body
                + length
                    .iter()
                    .fold(0, |sum, &byte| sum * 256 + usize::from(byte)),
        };
        next = chunk.next();
        Some(chunk)
    })
}

/// The top-level tags that are read, by the kind of file; all others are skipped.
const READ: [(&[u8; 4], &[&[u8; 4]]); 2] = [
    (b"LWOB", &[b"PNTS", b"SRFS", b"POLS", b"PCHS", b"SURF"]),
    (
        b"LWO2",
        &[b"LAYR", b"PNTS", b"TAGS", b"POLS", b"PTAG", b"SURF"],
    ),
];

/// How many chunks have a tag.
#[derive(Clone, Copy, Debug, PartialEq, Eq)]
pub struct TagCount {
    pub tag: [u8; 4],
    pub count: u64,
}

impl TagCount {
    pub fn new(tag: [u8; 4], count: u64) -> TagCount {
        TagCount { tag, count }
    }
}

/// The tags of an accepted file that are skipped, in the order in which they come first.
pub fn skipped(file: &[u8]) -> Vec<TagCount> {
    let read = READ.iter().find(|(of, _)| of[..] == *kind(file));
    let read = read.map_or(&[][..], |&(_, tags)| tags);
    let mut list: Vec<TagCount> = Vec::new();
    for chunk in chunks(file).filter(|chunk| !read.contains(&&chunk.tag)) {
        match list.iter_mut().find(|one| one.tag == chunk.tag) {
            Some(one) => one.count += 1,
            None => list.push(TagCount::new(chunk.tag, 1)),
        }
    }
    list
}

#[cfg(test)]
mod tests {
    use super::*;
    use lwo::Counts;

    /// As many as the library counts, in files of both kinds.
    #[test]
    fn what_is_skipped_is_what_the_library_skips() {
        let mut some = 0;
        for (name, file) in cases::files::files(3).take(600) {
            if let Ok(counts) = Counts::of(&file) {
                let sum: u64 = skipped(&file).iter().map(|one| one.count).sum();
                assert_eq!(sum, counts.skipped, "{name}");
                some += u64::from(sum > 0);
            }
        }
        assert!(some > 50, "{some}");
    }

    #[test]
    fn skipped_tags_stand_in_their_order() {
        let file = b"FORM\0\0\0\x2cLWOBCRVS\0\0\0\0PTAG\0\0\0\0CRVS\0\0\0\0PNTS\0\0\0\0";
        let found = skipped(file);
        assert_eq!(
            found,
            [TagCount::new(*b"CRVS", 2), TagCount::new(*b"PTAG", 1)]
        );
    }

    const FILE: &[u8] = b"FORM\0\0\0\x20LWO2NOTE\0\0\0\x01x\0LONG\0\0\0\x09abc";

    fn chunk(tag: &[u8; 4], start: usize, body: usize, end: usize) -> Chunk {
        Chunk {
            tag: *tag,
            start,
            body,
            end,
        }
    }

    #[test]
    fn chunks_follow_each_other() {
        let found: Vec<Chunk> = chunks(FILE).collect();
        assert_eq!(
            found,
            [chunk(b"NOTE", 12, 20, 21), chunk(b"LONG", 22, 30, 39)]
        );
    }

    #[test]
    fn sub_chunks_follow_each_other() {
        let bytes = b"Oak\0SIDE\0\x02\0\x01GLOS\0\x01x\0COLR\0";
        let found: Vec<Chunk> = sub_chunks(bytes, 4).collect();
        assert_eq!(
            found,
            [chunk(b"SIDE", 4, 10, 12), chunk(b"GLOS", 12, 18, 19)]
        );
    }

    #[test]
    fn an_odd_body_has_a_pad_byte_behind_it() {
        assert_eq!(chunk(b"NOTE", 12, 20, 21).next(), 22);
        assert_eq!(chunk(b"NOTE", 12, 20, 22).next(), 22);
    }

    /// A header that is cut has no tag that could be told.
    #[test]
    fn a_header_that_is_cut_is_no_chunk() {
        assert_eq!(chunks(&FILE[..12]).count(), 0);
        assert_eq!(chunks(&FILE[..19]).count(), 0);
        assert_eq!(chunks(&FILE[..20]).count(), 1);
        assert_eq!(chunks(b"FOR").count(), 0);
    }
}
