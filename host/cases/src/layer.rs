//! LAYR, which request #103 lists for LWO2. In LWOB it is any unlisted chunk.

use crate::assemble::{chunk, f4, join, string, u2};

/// "number U2, flags U2, pivot of three finite floats (7), name, and a parent
/// U2 or nothing after it".
#[derive(Clone, Debug, Default)]
pub struct Layer {
    pub number: u16,
    pub flags: u16,
    /// Three floats by their bits.
    pub pivot: [u32; 3],
    pub name: Vec<u8>,
    pub parent: Option<u16>,
}

impl Layer {
    /// A layer of this name, with zeros before it and no parent.
    pub fn named(name: &[u8]) -> Layer {
        Layer {
            name: name.to_vec(),
            ..Layer::default()
        }
    }

    pub fn body(&self) -> Vec<u8> {
        let [x, y, z] = self.pivot.map(f4);
        let numbers = [u2(self.number), u2(self.flags)];
        let parent = self.parent.map_or_else(Vec::new, u2);
        join(&[join(&numbers), x, y, z, string(&self.name), parent])
    }

    pub fn chunk(&self) -> Vec<u8> {
        chunk(b"LAYR", &self.body())
    }
}

#[cfg(test)]
mod tests {
    use super::*;

    #[test]
    fn a_layer_with_all_its_parts() {
        let layer = Layer {
            number: 1,
            flags: 0x8001,
            pivot: [0x3f80_0000, 0, 0xc000_0000],
            name: b"Lid".to_vec(),
            parent: Some(0xffff),
        };
        let bytes = b"LAYR\0\0\0\x16\0\x01\x80\x01\x3f\x80\0\0\0\0\0\0\xc0\0\0\0Lid\0\xff\xff";
        assert_eq!(layer.chunk(), bytes);
    }

    #[test]
    fn a_layer_without_parent() {
        let bytes = join(&[&b"LAYR\0\0\0\x14"[..], &[0; 16], b"ab\0\0"]);
        assert_eq!(Layer::named(b"ab").chunk(), bytes);
    }
}
