//! A change of the specification put to the test: applied to a copy, and what
//! sees it checked by the prover.

use std::fs;
use std::path::{Path, PathBuf};

use crate::case::Case;
use crate::mutants::{Mutant, Seen};
use crate::prover::{check, Verdict};
use crate::repository::{leave_worked_out, write_law, write_specification, write_theorems};

/// The file of laws that see changes.
const LAWS: &str = "Bounds";

/// Where copies are written, the specification's crate, and all cases.
pub struct Trial {
    pub folder: PathBuf,
    pub rules: PathBuf,
    pub cases: Vec<Case>,
}

impl Trial {
    /// The specification as it is, with everything that some mutants are said to
    /// be seen by: it has to be proved, or a refusal would show nothing.
    pub fn control(&self, mutants: &[&Mutant]) -> Result<(), String> {
        let folder = self.folder.join("unchanged");
        write_specification(&folder, &self.rules).map_err(text)?;
        self.add_laws(&folder)?;
        let mut cases = Vec::new();
        for mutant in mutants {
            if let Seen::Case(name) = &mutant.seen {
                cases.push(self.case(name)?);
            }
        }
        cases.sort_by_key(|case| &case.name);
        cases.dedup_by_key(|case| &case.name);
        write_theorems(&folder, &cases).map_err(text)?;
        let verdict = verdict(&folder, None)?;
        let _ = fs::remove_dir_all(&folder);
        match verdict.proved {
            true => Ok(()),
            false => Err(format!("it is refused unchanged: {}", refused(&verdict))),
        }
    }

    /// Whether what the list says sees the change does.
    pub fn seen(&self, mutant: &Mutant) -> Result<String, String> {
        let folder = self.changed(mutant)?;
        let (by, verdict, seen) = match &mutant.seen {
            Seen::Unknown => return Err(String::from("the list does not say by what")),
            Seen::Same(reason) => return Ok(format!("changes no answer: {reason}")),
            Seen::Worked => {
                let verdict = verdict(&folder, Some("format"))?;
                let seen = by_table(&verdict);
                (String::from("the worked table"), verdict, seen)
            }
            Seen::Law(law) => {
                self.add_laws(&folder)?;
                let verdict = verdict(&folder, Some("format"))?;
                let seen = by_law(&verdict, law);
                (format!("the law {law}"), verdict, seen)
            }
            Seen::Case(name) => {
                leave_worked_out(&folder).map_err(text)?;
                write_theorems(&folder, &[self.case(name)?]).map_err(text)?;
                let verdict = verdict(&folder, None)?;
                let seen = by_cases(&verdict).contains(name);
                (format!("the case {name}"), verdict, seen)
            }
        };
        let _ = fs::remove_dir_all(&folder);
        match seen {
            true => Ok(format!("seen by {by}")),
            false => Err(format!("not by {by}{}", refused(&verdict))),
        }
    }

    /// A copy with the change.
    pub fn changed(&self, mutant: &Mutant) -> Result<PathBuf, String> {
        let folder = self.folder.join(&mutant.label);
        let _ = fs::remove_dir_all(&folder);
        write_specification(&folder, &self.rules).map_err(text)?;
        let file = folder.join("crates/format").join(&mutant.file);
        let old = fs::read_to_string(&file).map_err(|error| format!("{}: {error}", mutant.file))?;
        fs::write(&file, mutant.applied(&old)?).map_err(text)?;
        Ok(folder)
    }

    /// The laws, into a copy.
    pub fn add_laws(&self, folder: &Path) -> Result<(), String> {
        write_law(folder, &self.rules, LAWS).map_err(text)
    }

    fn case(&self, name: &str) -> Result<&Case, String> {
        let case = self.cases.iter().find(|case| case.name == name);
        case.ok_or_else(|| format!("there is no case {name}"))
    }
}

fn text(error: std::io::Error) -> String {
    error.to_string()
}

/// The prover's verdict on a copy. What it refuses in the specification itself,
/// but for the worked table, is no change of an answer.
pub fn verdict(folder: &Path, name: Option<&str>) -> Result<Verdict, String> {
    let verdict = check(folder, name).map_err(|error| format!("rt: {error}"))?;
    if !verdict.proved && verdict.refusals.is_empty() {
        return Err(String::from("the prover failed and refused nothing"));
    }
    let specs = |file: &str| file.contains("/specs/") && !file.ends_with("/Worked.antt");
    match verdict.refusals.iter().any(|one| specs(&one.file)) {
        true => Err(format!("no specification any more{}", refused(&verdict))),
        false => Ok(verdict),
    }
}

/// What was refused, in words.
fn refused(verdict: &Verdict) -> String {
    match verdict.refusals.first() {
        Some(one) => format!(
            "; refused: {} at {}:{}",
            one.declaration, one.file, one.line
        ),
        None => String::from("; nothing is refused"),
    }
}

pub fn by_table(verdict: &Verdict) -> bool {
    let mut refusals = verdict.refusals.iter();
    refusals.any(|one| one.file.ends_with("specs/Worked.antt"))
}

fn by_law(verdict: &Verdict, law: &str) -> bool {
    let mut refusals = verdict.refusals.iter();
    refusals.any(|one| one.file.ends_with("proofs/Bounds.antt") && one.declaration == law)
}

pub fn by_cases(verdict: &Verdict) -> Vec<String> {
    let refusals = verdict.refusals.iter();
    refusals.filter_map(|one| one.case.clone()).collect()
}
