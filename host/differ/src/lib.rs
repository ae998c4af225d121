//! Compares the proved library with the second program.
//!
//! The library is called by the two calls of the crate `lwo`. For one file it is given tables of
//! many lengths, with any contents, and the whole answer, every word of every
//! table and the words on both sides of each table have to be as the second
//! program has them. For one mesh the same is done with the output. What the
//! demands say of the library alone is asked of it too: longer tables and one
//! more unlisted chunk never change an answer, and what is written reads back.
#![forbid(unsafe_code)]

pub mod check;
pub mod counts;
pub mod damage;
pub mod files;
pub mod guarded;
pub mod hexadecimal;
pub mod lent;
pub mod library;
pub mod meshes;
pub mod more;
pub mod reading;
pub mod rooms;
pub mod shrink;
pub mod writing;
