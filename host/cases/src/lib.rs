//! A seeded generator of test files and meshes.
//!
//! The files are put together from bytes by a small assembler of their own,
//! and what they must answer is said by the generator itself, from the
//! documents. No reader decides here what is valid: the tests join the two.
//!
//! The same seed gives the same bytes on every machine.
#![forbid(unsafe_code)]

pub mod accepted;
pub mod assemble;
pub mod boundary;
pub mod files;
pub mod floats;
pub mod indices;
pub mod insert;
pub mod layer;
pub mod lwo2;
pub mod lwob;
pub mod meshes;
pub mod mutate;
pub mod names;
pub mod plain;
pub mod random;
pub mod samples;
pub mod targeted;
pub mod unlisted;
pub mod valid;
