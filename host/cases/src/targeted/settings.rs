//! Settings: the good chunks that stand before a chunk at fault.

use super::passed_chunk;
use crate::assemble::{chunk, f4, join, string, u2, vx, Kind};
use crate::layer::Layer;

/// Good chunks, and the kind of file that they are in.
#[derive(Clone)]
pub struct Setting {
    pub kind: Kind,
    chunks: Vec<Vec<u8>>,
}

impl Setting {
    /// Nothing before it.
    pub fn empty(kind: Kind) -> Setting {
        Setting {
            kind,
            chunks: Vec::new(),
        }
    }

    pub fn with(mut self, chunk: Vec<u8>) -> Setting {
        self.chunks.push(chunk);
        self
    }

    /// The same with an unlisted chunk in front.
    pub fn moved(&self) -> Setting {
        let mut moved = self.clone();
        moved.chunks.insert(0, passed_chunk());
        moved
    }

    pub fn content(&self) -> Vec<u8> {
        join(&self.chunks)
    }

    /// LWOB with three points and two names, so that POLS and PCHS may come.
    pub fn lwob() -> Setting {
        Setting::empty(Kind::Lwob)
            .with(points(3))
            .with(names(b"SRFS"))
    }

    /// LWO2 with two names and three points, so that POLS may come.
    pub fn lwo2() -> Setting {
        Setting::empty(Kind::Lwo2)
            .with(names(b"TAGS"))
            .with(points(3))
    }

    /// The same with two faces, so that PTAG may come.
    pub fn lwo2_polygons() -> Setting {
        Setting::lwo2().with(two_faces())
    }

    /// The same, and a new layer after it.
    pub fn lwo2_layer() -> Setting {
        Setting::lwo2_polygons().with(layer())
    }

    /// The kind's setting with points and names.
    pub fn ready(kind: Kind) -> Setting {
        match kind {
            Kind::Lwob => Setting::lwob(),
            Kind::Lwo2 => Setting::lwo2(),
        }
    }
}

/// A PNTS chunk with so many points.
pub fn points(count: usize) -> Vec<u8> {
    chunk(b"PNTS", &f4(0x3f80_0000).repeat(3 * count))
}

/// A list of the names `a` and `bc`.
pub fn names(tag: &[u8; 4]) -> Vec<u8> {
    chunk(tag, &join(&[string(b"a"), string(b"bc")]))
}

/// A POLS chunk with a triangle and a one-point face.
pub fn two_faces() -> Vec<u8> {
    let triangle = join(&[u2(3), vx(0), vx(1), vx(2)]);
    let single = join(&[u2(1), vx(2)]);
    chunk(b"POLS", &join(&[&b"FACE"[..], &triangle, &single]))
}

/// A good LAYR chunk.
pub fn layer() -> Vec<u8> {
    Layer::named(b"Lid").chunk()
}
