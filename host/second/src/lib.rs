//! An independent second reader and writer of LWOB and LWO2 object files.
//!
//! The proved library is compared with this one, so this one is written from
//! the documents alone: document 01 is the law, with what document 02 says of
//! numbers and places (request #101), of LAYR (#103), of the missing colour
//! (#105), of small indices in the long form (#107) and of parts (#111);
//! sources 000, 001 and 003 describe LWOB, and source 002 describes LWO2.
//!
//! The library's way is plain. [`rules`] walks the file once and gathers the
//! mesh in lists of its own, stopping at the first fault. [`read`] then looks
//! whether the lent tables have room, and only then copies. So no refusal can
//! have changed a table.
#![forbid(unsafe_code)]

pub mod canonical;
pub mod chunks;
pub mod found;
pub mod items;
pub mod limits;
pub mod listing;
pub mod lwo2;
pub mod lwob;
pub mod mesh;
pub mod reader;
pub mod refusal;
pub mod surface;
pub mod tables;
pub mod writer;

pub use canonical::canonical;
pub use listing::listing;
pub use mesh::{Mesh, Polygon};
pub use reader::{read, rules, Answer};
pub use refusal::{Fault, Refusal};
pub use surface::Record;
pub use tables::Tables;
pub use writer::{is_mesh, write, Written};
