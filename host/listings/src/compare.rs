//! The comparison, file by file.

use std::fmt;
use std::io;

use second::listing;

use crate::inputs::Input;

/// The program looks at no more bytes than these.
const SEEN_BYTES: usize = 65_537;

/// How many files were listed, refused, or not read, alike by both.
#[derive(Debug, Default, PartialEq, Eq)]
pub struct Counts {
    pub accepted: u64,
    pub refused: u64,
    pub not_read: u64,
}

impl fmt::Display for Counts {
    fn fmt(&self, f: &mut fmt::Formatter) -> fmt::Result {
        let all = self.accepted + self.refused + self.not_read;
        write!(
            f,
            "{all} files agree: {} accepted, {} refused, {} not read",
            self.accepted, self.refused, self.not_read
        )
    }
}

/// A file on which the two differ.
#[derive(Debug, PartialEq, Eq)]
pub struct Difference {
    pub name: String,
    pub file: Vec<u8>,
    pub expected: String,
    pub printed: String,
}

impl Difference {
    /// The bytes that the program looks at.
    pub fn seen_in_hexadecimal(&self) -> String {
        let seen = self.file.iter().take(SEEN_BYTES);
        seen.map(|byte| format!("{byte:02x}")).collect()
    }
}

/// Runs the program on every file, up to the first difference.
pub fn compare(
    run: impl Fn(&[u8]) -> io::Result<Vec<u8>>,
    inputs: impl Iterator<Item = Input>,
) -> io::Result<Result<Counts, Difference>> {
    let mut counts = Counts::default();
    for (name, file) in inputs {
        let expected = listing(&file);
        let printed = run(&file)?;
        if printed != expected.as_bytes() {
            return Ok(Err(Difference {
                name,
                file,
                expected,
                printed: String::from_utf8_lossy(&printed).into_owned(),
            }));
        }
        match expected.as_str() {
            "not read\n" => counts.not_read += 1,
            text if text.starts_with("accepted\n") => counts.accepted += 1,
            _ => counts.refused += 1,
        }
    }
    Ok(Ok(counts))
}

#[cfg(test)]
mod tests {
    use super::*;
    use crate::inputs::{fixed, generated};

    fn right(file: &[u8]) -> io::Result<Vec<u8>> {
        Ok(listing(file).into_bytes())
    }

    #[test]
    fn a_right_program_agrees_on_all() {
        let counts = compare(right, generated(1).take(300)).expect("it runs");
        let counts = counts.expect("they agree");
        assert_eq!(counts.accepted + counts.refused + counts.not_read, 300);
        assert!(counts.accepted > 0 && counts.refused > 0);
    }

    /// Each wrong program is right on some files, and has to be found.
    #[test]
    fn wrong_programs_are_found() {
        let refuses_all = |_: &[u8]| Ok(b"refused 2 at 0\n".to_vec());
        let reads_all = |file: &[u8]| right(&file[..file.len().min(65_536)]);
        let no_last_line_end = |file: &[u8]| {
            let mut text = right(file)?;
            text.pop();
            Ok(text)
        };
        let counts_from_1 = |file: &[u8]| {
            let text = listing(file).replace("polygon 0 ", "polygon 1 ");
            Ok(text.into_bytes())
        };
        let without_parts = |file: &[u8]| Ok(with_parts(file, |_| String::new()));
        let without_part_names = |file: &[u8]| Ok(with_parts(file, |_| String::from(" part 0")));
        let parts_from_0 = |file: &[u8]| {
            Ok(with_parts(file, |part| {
                format!(" part {}", part.saturating_sub(1))
            }))
        };
        type Program<'a> = &'a dyn Fn(&[u8]) -> io::Result<Vec<u8>>;
        let wrong: [Program; 7] = [
            &refuses_all,
            &reads_all,
            &no_last_line_end,
            &counts_from_1,
            &without_parts,
            &without_part_names,
            &parts_from_0,
        ];
        for (number, run) in wrong.into_iter().enumerate() {
            let result = compare(run, fixed()).expect("it runs");
            assert!(result.is_err(), "{number}");
        }
    }

    /// With the right words for its parts, the program is right.
    #[test]
    fn right_parts_agree() {
        let same = |file: &[u8]| Ok(with_parts(file, |part| format!(" part {part}")));
        let counts = compare(same, fixed()).expect("it runs");
        assert!(counts.expect("they agree").accepted > 0);
    }

    /// The listing with other words for the part of each polygon.
    fn with_parts(file: &[u8], words: fn(u32) -> String) -> Vec<u8> {
        let mut text = String::new();
        for line in listing(file).lines() {
            let changed = line.split_once(" part ").and_then(|(front, rest)| {
                let (part, vertices) = rest.split_once(' ')?;
                let part = words(part.parse().ok()?);
                Some(format!("{front}{part} {vertices}"))
            });
            text += changed.as_deref().unwrap_or(line);
            text.push('\n');
        }
        text.into_bytes()
    }

    #[test]
    fn a_difference_has_the_files_bytes() {
        let inputs = [(String::from("three"), vec![0, 16, 255])];
        let result = compare(|_| Ok(Vec::new()), inputs.into_iter()).expect("it runs");
        let difference = result.expect_err("they differ");
        assert_eq!(difference.seen_in_hexadecimal(), "0010ff");
        assert_eq!(difference.expected, "refused 2 at 0\n");
    }
}
