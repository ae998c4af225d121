//! Bytes of object files, put together piece by piece. "All integers and
//! floats have the high byte first."

/// A tag of four bytes.
pub type Tag = [u8; 4];

/// The two kinds of file.
#[derive(Clone, Copy, Debug, PartialEq, Eq)]
pub enum Kind {
    Lwob,
    Lwo2,
}

impl Kind {
    /// The FORM's type.
    pub fn tag(self) -> &'static Tag {
        match self {
            Kind::Lwob => b"LWOB",
            Kind::Lwo2 => b"LWO2",
        }
    }

    pub fn word(self) -> &'static str {
        match self {
            Kind::Lwob => "lwob",
            Kind::Lwo2 => "lwo2",
        }
    }
}

pub fn u2(number: u16) -> Vec<u8> {
    number.to_be_bytes().to_vec()
}

pub fn i2(number: i16) -> Vec<u8> {
    number.to_be_bytes().to_vec()
}

pub fn u4(number: u32) -> Vec<u8> {
    number.to_be_bytes().to_vec()
}

/// A float by its bits.
pub fn f4(bits: u32) -> Vec<u8> {
    u4(bits)
}

/// An index in two bytes; it must be below 65,280.
pub fn vx_short(index: u32) -> Vec<u8> {
    assert!(index < 0xff00, "{index} has no short form");
    u2(index as u16)
}

/// An index in four bytes, whatever it is.
pub fn vx_long(index: u32) -> Vec<u8> {
    assert!(index < 0x0100_0000, "{index} is no index");
    u4(0xff00_0000 + index)
}

/// An index in as few bytes as it can have.
pub fn vx(index: u32) -> Vec<u8> {
    if index < 0xff00 {
        vx_short(index)
    } else {
        vx_long(index)
    }
}

/// A name with its terminator, "and one more zero follows if name and
/// terminator together are odd".
pub fn string(name: &[u8]) -> Vec<u8> {
    assert!(!name.contains(&0), "a name has no zero byte");
    let mut bytes = name.to_vec();
    bytes.push(0);
    if bytes.len() % 2 == 1 {
        bytes.push(0);
    }
    bytes
}

/// Pieces joined to one body.
pub fn join<T: AsRef<[u8]>>(pieces: &[T]) -> Vec<u8> {
    let mut bytes = Vec::new();
    for piece in pieces {
        bytes.extend_from_slice(piece.as_ref());
    }
    bytes
}

/// A chunk: tag, U4 length, body, and a zero pad byte if the length is odd.
pub fn chunk(tag: &Tag, body: &[u8]) -> Vec<u8> {
    let length = u4(u32::try_from(body.len()).expect("a body that fits"));
    padded(join(&[&tag[..], &length, body]), body.len())
}

/// A sub-chunk: the same with a U2 length.
pub fn sub_chunk(tag: &Tag, body: &[u8]) -> Vec<u8> {
    let length = u2(u16::try_from(body.len()).expect("a body that fits"));
    padded(join(&[&tag[..], &length, body]), body.len())
}

fn padded(mut bytes: Vec<u8>, length: usize) -> Vec<u8> {
    if length % 2 == 1 {
        bytes.push(0);
    }
    bytes
}

/// A whole file: FORM, its length, its type, and what it holds.
pub fn form(kind: Kind, content: &[u8]) -> Vec<u8> {
    let length = u4(u32::try_from(content.len() + 4).expect("a content that fits"));
    join(&[&b"FORM"[..], &length, kind.tag(), content])
}

/// A file as its top-level chunks, each with header and pad.
#[derive(Clone, Debug)]
pub struct Parts {
    pub kind: Kind,
    pub chunks: Vec<Vec<u8>>,
}

impl Parts {
    pub fn file(&self) -> Vec<u8> {
        form(self.kind, &join(&self.chunks))
    }

    /// How many places there are between, before and after the chunks.
    pub fn boundaries(&self) -> usize {
        self.chunks.len() + 1
    }

    /// The offset in the file at which the chunk of this number lies; for the
    /// last boundary, the file's length.
    pub fn offset(&self, number: usize) -> u64 {
        let before: usize = self.chunks[..number].iter().map(Vec::len).sum();
        12 + before as u64
    }
}

#[cfg(test)]
mod tests {
    use super::*;

    #[test]
    fn a_chunk_of_odd_length_is_padded() {
        assert_eq!(chunk(b"TEXT", b"x"), b"TEXT\0\0\0\x01x\0");
        assert_eq!(chunk(b"TEXT", b"xy"), b"TEXT\0\0\0\x02xy");
        assert_eq!(sub_chunk(b"GLOS", b"x"), b"GLOS\0\x01x\0");
    }

    #[test]
    fn strings_are_even() {
        assert_eq!(string(b""), [0, 0]);
        assert_eq!(string(b"Oak"), b"Oak\0");
        assert_eq!(string(b"Ash "), b"Ash \0\0");
    }

    #[test]
    fn indices_have_two_forms() {
        assert_eq!(vx(65_279), [0xfe, 0xff]);
        assert_eq!(vx(65_280), [0xff, 0x00, 0xff, 0x00]);
        assert_eq!(vx_long(5), [0xff, 0x00, 0x00, 0x05]);
    }

    #[test]
    fn the_empty_file() {
        assert_eq!(form(Kind::Lwo2, &[]), b"FORM\0\0\0\x04LWO2");
    }
}
