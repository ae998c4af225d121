//! Going through many files: each is read, judged and told in turn.

use std::io::{self, Write};

use lwo::Refusal;

use super::folders::Found;
use super::input::{self, Source};
use super::progress::Progress;
use super::rejection::Rejection;
use super::standard::Standard;
use super::Outcome;

/// Judges every file and prints what was found. One that is refused or cannot be read does not
/// keep the others from being told.
pub fn each<T>(
    files: Vec<Found>,
    out: &mut Standard,
    judge: impl Fn(&[u8]) -> Result<T, Refusal>,
    mut print: impl FnMut(&Source, &Result<T, Rejection>, &mut Standard) -> io::Result<()>,
) -> io::Result<Outcome> {
    let at_once = out.get_ref().is_terminal();
    let mut progress = Progress::of_files(files.len());
    let mut outcome = Outcome::Fine;
    for (number, Found { source, problem }) in (1..).zip(files) {
        progress.show(number, &source.to_string());
        let judged = match problem {
            Some(problem) => Err(Rejection::NotRead(problem)),
            None => judged(&source, &judge),
        };
        progress.clear();
        if judged.is_err() {
            outcome = Outcome::Refused;
        }
        print(&source, &judged, out)?;
        if at_once {
            out.flush()?;
        }
    }
    Ok(outcome)
}

fn judged<T>(source: &Source, judge: impl Fn(&[u8]) -> Result<T, Refusal>) -> Result<T, Rejection> {
    let input = input::read(source).map_err(Rejection::NotRead)?;
    judge(&input.bytes).map_err(|refusal| Rejection::refused(refusal, &input.bytes))
}
