//! Reads LightWave object files, LWOB and LWO2, and writes a mesh as one canonical LWO2 file.
//!
//! The reading and writing is done by a library whose functions are proved to meet the rules;
//! this crate lends it slices and gives its answers Rust's shapes. It reads points, faces,
//! patches, names of surfaces and of the parts of a figure, and base surface values. The layers of
//! an LWO2 file are judged and not kept: its mesh has the points and polygons of all of them.
//! Curves, vertex maps, clips, envelopes and textures are not read.
//!
//! ```
//! # let file = b"FORM\0\0\0\x60LWO2TAGS\0\0\0\x04Oak\0PNTS\0\0\0\x24\
//! #     \0\0\0\0\0\0\0\0\0\0\0\0\x3f\x80\0\0\0\0\0\0\0\0\0\0\0\0\0\0\x40\0\0\0\0\0\0\0\
//! #     POLS\0\0\0\x0cFACE\0\x03\0\0\0\x01\0\x02PTAG\0\0\0\x08SURF\0\0\0\0";
//! use lwo::Mesh;
//!
//! // `file` holds the bytes of an object file: a triangle of oak.
//! let mesh = Mesh::read(file)?;
//! let corners: Vec<[f32; 3]> = mesh.points().collect();
//! assert_eq!(corners, [[0.0, 0.0, 0.0], [1.0, 0.0, 0.0], [0.0, 2.0, 0.0]]);
//!
//! for polygon in mesh.polygons() {
//!     assert_eq!(polygon.kind, lwo::Kind::Face);
//!     assert_eq!(polygon.vertices, [0, 1, 2]);
//!     let surface = mesh.surface_of(&polygon).expect("it has one");
//!     assert_eq!(surface.name, lwo::Name::from("Oak"));
//! }
//!
//! // The canonical file of the mesh is read back as the same mesh, to the bit.
//! assert_eq!(Mesh::read(&mesh.to_lwo2()?)?, mesh);
//! # Ok::<(), lwo::Refusal>(())
//! ```
//!
//! A file that is not accepted is refused with a number, a place and a sentence. The place is the
//! offset of the first byte of what is at fault:
//!
//! ```
//! // A list of names, at 12, whose second name, at 24, has no zero byte at its end.
//! let refusal = lwo::Mesh::read(b"FORM\0\0\0\x12LWO2TAGS\0\0\0\x06Oak\0As").unwrap_err();
//! assert_eq!((refusal.number(), refusal.place), (20, 24));
//! assert_eq!(refusal.kind, lwo::RefusalKind::StringOpen);
//! assert!(refusal.to_string().starts_with("refused 20 at 24: a name"));
//! ```
//!
//! [`Mesh::open`] reads a file by its name, and [`MeshBuilder`] makes a mesh from plain data.
//! [`Counts`] tells what a file holds without keeping it, [`Reading`] gives a mesh together with
//! those counts, and [`lent`] has the library's own two functions, for a caller that lends
//! tables of its own.
#![deny(unsafe_code)]
#![warn(missing_docs)]

mod builder;
mod counts;
mod escaped;
mod ffi;
#[allow(unsafe_code)]
pub mod lent;
mod mesh;
mod name;
mod polygon;
mod read_error;
mod reading;
mod refusal;
mod refusal_kind;
mod starts;
mod surface;
mod tables;

pub use builder::{MeshBuilder, NO_PART, NO_SURFACE};
pub use counts::Counts;
pub use escaped::Escaped;
pub use mesh::Mesh;
pub use name::{Name, Names};
pub use polygon::{Kind, Polygon, Polygons};
pub use read_error::ReadError;
pub use reading::Reading;
pub use refusal::Refusal;
pub use refusal_kind::RefusalKind;
pub use surface::{Sides, Surface};
pub use tables::{Tables, POINT_WORDS, POLYGON_WORDS, RECORD_WORDS};

/// The longest file that is read or written, in bytes.
pub const FILE_LIMIT: usize = 16_777_216;
