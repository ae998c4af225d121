//! Items: "Each type, number, float and string is an item."
//!
//! A cursor walks over one body. Each method reads one item; an item that
//! reaches past the body's end is cut, and that is answered before its value
//! is looked at. What is wrong with an item lies at its first byte, which is
//! the body's end where no byte of it is there.

use crate::limits::LONG_INDEX;
use crate::refusal::{Fault, Flaw};

/// The part of a body that is still to be read, and where in the file it lies.
#[derive(Clone, Copy, Debug)]
pub struct Cursor<'a> {
    rest: &'a [u8],
    at: usize,
}

impl<'a> Cursor<'a> {
    /// A cursor over the bytes from `at` up to `end`, which must lie in the
    /// file.
    pub fn new(file: &'a [u8], at: usize, end: usize) -> Cursor<'a> {
        Cursor {
            rest: &file[at..end],
            at,
        }
    }

    /// The offset in the file of the next byte.
    pub fn at(&self) -> usize {
        self.at
    }

    /// The offset in the file at which the body ends.
    pub fn end(&self) -> usize {
        self.at + self.rest.len()
    }

    /// Whether the body is used up.
    pub fn is_done(&self) -> bool {
        self.rest.is_empty()
    }

    /// A fault of the next item.
    fn flaw(&self, fault: Fault) -> Flaw {
        Flaw::new(fault, self.at)
    }

    fn bytes<const N: usize>(&mut self) -> Result<[u8; N], Flaw> {
        let Some((bytes, rest)) = self.rest.split_first_chunk::<N>() else {
            return Err(self.flaw(Fault::ItemCut));
        };
        self.rest = rest;
        self.at += N;
        Ok(*bytes)
    }

    /// A type: four bytes, whatever they are.
    pub fn four(&mut self) -> Result<[u8; 4], Flaw> {
        self.bytes::<4>()
    }

    /// An unsigned number of two bytes, high byte first.
    pub fn u2(&mut self) -> Result<u16, Flaw> {
        Ok(u16::from_be_bytes(self.bytes::<2>()?))
    }

    /// A signed number of two bytes, high byte first.
    pub fn i2(&mut self) -> Result<i16, Flaw> {
        Ok(i16::from_be_bytes(self.bytes::<2>()?))
    }

    /// A float's bits. "coordinate or level not finite" is 7, judged after the
    /// float is found to be whole.
    pub fn float(&mut self) -> Result<u32, Flaw> {
        let at = self.at;
        let bits = u32::from_be_bytes(self.bytes::<4>()?);
        if is_finite(bits) {
            Ok(bits)
        } else {
            Err(Flaw::new(Fault::NotFinite, at))
        }
    }

    /// "VX (002): if the first byte is 255, four bytes, index in the low 24
    /// bits; else two bytes. Reading goes on at the byte after the index."
    ///
    /// #107: "LWO2 says an index below 65,280 is written in two bytes. Refuse
    /// the long form for such an index wherever a VX is read, envelopes
    /// included." It is "22 (place: the index's first byte), after an item that
    /// is cut and before 9 or 11 for the same item".
    pub fn vx(&mut self) -> Result<u32, Flaw> {
        if self.rest.first() != Some(&255) {
            return Ok(u32::from(self.u2()?));
        }
        let at = self.at;
        let index = u32::from_be_bytes(self.bytes::<4>()?) & 0x00ff_ffff;
        if index < LONG_INDEX {
            return Err(Flaw::new(Fault::LongIndex, at));
        }
        Ok(index)
    }

    /// "In a string (S0) the name ends at its first zero byte, and one more
    /// zero follows if name and terminator together are odd." Both zeros lie
    /// inside the body.
    pub fn string(&mut self) -> Result<&'a [u8], Flaw> {
        let Some(length) = self.rest.iter().position(|&byte| byte == 0) else {
            return Err(self.flaw(Fault::StringTerminator));
        };
        let mut used = length + 1;
        if used % 2 == 1 {
            if self.rest.get(used) != Some(&0) {
                return Err(self.flaw(Fault::StringPad));
            }
            used += 1;
        }
        let name = &self.rest[..length];
        self.rest = &self.rest[used..];
        self.at += used;
        Ok(name)
    }
}

/// Whether a float with these bits is finite: its exponent bits are not all
/// ones. Bits only, so that no float arithmetic touches a coordinate.
pub fn is_finite(bits: u32) -> bool {
    bits & 0x7f80_0000 != 0x7f80_0000
}
