//! Names of surfaces and of parts.

use std::borrow::Cow;
use std::fmt;
use std::iter::FusedIterator;
use std::slice;
use std::str::{self, Utf8Error};

use crate::escaped::Escaped;

/// A name of a mesh: at most 255 bytes, none of them zero. The file format does not say which
/// letters the bytes mean; old files mostly have Latin-1, newer ones UTF-8.
///
/// ```
/// let name = lwo::Name::from(&b"Silm\xe4"[..]);
/// assert_eq!(name.to_latin1(), "Silmä");
/// assert!(name.to_str().is_err());
/// assert_eq!(format!("{name} {name:?}"), r#"Silm\xe4 Name("Silm\xe4")"#);
/// ```
#[derive(Clone, Copy, PartialEq, Eq, PartialOrd, Ord, Hash)]
pub struct Name<'a> {
    bytes: &'a [u8],
}

impl<'a> Name<'a> {
    /// The bytes as they are in the file, without the terminator.
    pub fn as_bytes(self) -> &'a [u8] {
        self.bytes
    }

    /// The name as UTF-8, if it is that.
    pub fn to_str(self) -> Result<&'a str, Utf8Error> {
        str::from_utf8(self.bytes)
    }

    /// The name as UTF-8; bytes that are not are shown as `U+FFFD`.
    pub fn to_string_lossy(self) -> Cow<'a, str> {
        String::from_utf8_lossy(self.bytes)
    }

    /// The name as Latin-1, in which every byte is a letter.
    pub fn to_latin1(self) -> String {
        self.bytes.iter().copied().map(char::from).collect()
    }
}

impl<'a> From<&'a [u8]> for Name<'a> {
    fn from(bytes: &'a [u8]) -> Name<'a> {
        Name { bytes }
    }
}

impl<'a> From<&'a str> for Name<'a> {
    fn from(text: &'a str) -> Name<'a> {
        Name::from(text.as_bytes())
    }
}

impl AsRef<[u8]> for Name<'_> {
    fn as_ref(&self) -> &[u8] {
        self.bytes
    }
}

/// Letters as [`Escaped`] writes them, so that no two names look alike.
impl fmt::Display for Name<'_> {
    fn fmt(&self, f: &mut fmt::Formatter<'_>) -> fmt::Result {
        Escaped(self.bytes).fmt(f)
    }
}

impl fmt::Debug for Name<'_> {
    fn fmt(&self, f: &mut fmt::Formatter<'_>) -> fmt::Result {
        write!(f, "Name(\"{}\")", self.bytes.escape_ascii())
    }
}

/// The names of a mesh in file order: what [`Mesh::names`](crate::Mesh::names) gives.
#[derive(Clone, Debug)]
pub struct Names<'a> {
    lengths: slice::Iter<'a, u32>,
    /// The bytes of the names still to come.
    bytes: &'a [u8],
}

impl<'a> Names<'a> {
    pub(crate) fn new(lengths: &'a [u32], bytes: &'a [u8]) -> Names<'a> {
        Names {
            lengths: lengths.iter(),
            bytes,
        }
    }
}

impl<'a> Iterator for Names<'a> {
    type Item = Name<'a>;

    fn next(&mut self) -> Option<Name<'a>> {
        let &length = self.lengths.next()?;
        let (bytes, rest) = self.bytes.split_at(length as usize);
        self.bytes = rest;
        Some(Name { bytes })
    }

    fn size_hint(&self) -> (usize, Option<usize>) {
        self.lengths.size_hint()
    }
}

impl ExactSizeIterator for Names<'_> {}

impl FusedIterator for Names<'_> {}

#[cfg(test)]
mod tests {
    use super::*;

    #[test]
    fn names_are_cut_by_their_lengths() {
        let names: Vec<&[u8]> = Names::new(&[3, 0, 2], b"OakIe")
            .map(Name::as_bytes)
            .collect();
        assert_eq!(names, [&b"Oak"[..], b"", b"Ie"]);
        assert_eq!(Names::new(&[3, 0, 2], b"OakIe").len(), 3);
    }

    #[test]
    fn a_name_is_read_as_utf8_and_as_latin1() {
        let old = Name::from(&b"Ch\xeane"[..]);
        assert_eq!(old.to_string_lossy(), "Ch\u{fffd}ne");
        assert_eq!(old.to_latin1(), "Chêne");
        let new = Name::from("Chêne");
        assert_eq!(new.to_str(), Ok("Chêne"));
        assert_eq!(new.to_string_lossy(), "Chêne");
        assert_eq!(new.to_latin1(), "ChÃªne");
    }
}
