//! `lwo canonical`: a file read, and written as one canonical LWO2 file.

use std::io;

use lwo::Mesh;

use super::convert::convert;
use super::destination::Target;
use super::input::Source;
use super::standard::Standard;
use super::Outcome;

pub fn canonical(from: &Source, target: &Target, out: &mut Standard) -> io::Result<Outcome> {
    convert(from, target, out, |file| Mesh::read(file)?.to_lwo2())
}
