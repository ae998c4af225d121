//! A file read, and another one made of it and written: what every command does that writes.

use std::io;

use lwo::Refusal;

use super::destination::Target;
use super::input::{self, Source};
use super::progress::Progress;
use super::rejection::Rejection;
use super::standard::Standard;
use super::{tell, Outcome};

/// Writes what is made of the source's bytes, or tells why nothing is.
pub fn convert(
    from: &Source,
    target: &Target,
    out: &mut Standard,
    make: impl Fn(&[u8]) -> Result<Vec<u8>, Refusal>,
) -> io::Result<Outcome> {
    let mut progress = Progress::of_files(1);
    progress.show(1, &from.to_string());
    let made = input::read(from)
        .map_err(Rejection::NotRead)
        .and_then(|input| match make(&input.bytes) {
            Ok(file) => Ok((file, input.identity)),
            Err(refusal) => Err(Rejection::refused(refusal, &input.bytes)),
        });
    progress.clear();
    match made {
        Ok((file, identity)) => target.write(&file, identity.as_slice(), out),
        Err(rejection) => {
            tell(&format!("{from}: {rejection}"));
            Ok(Outcome::Refused)
        }
    }
}
