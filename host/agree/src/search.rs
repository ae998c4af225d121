//! What sees a change of the specification, found by trying everything that the
//! gate computes.

use std::collections::HashSet;
use std::fs;

use crate::case::{Case, Sort};
use crate::mutants::Mutant;
use crate::repository::write_theorems;
use crate::trial::{by_cases, by_table, verdict, Trial};

/// Cases that are tried at a time.
const CASES_A_TRY: usize = 900;

/// Generated files and fixed ones in the first try.
const GENERATED_FIRST: usize = 40;
const FIXED_FIRST: usize = 80;

/// Cases that are named of those that see a change.
const NAMED: usize = 4;

/// The first that sees a change: the worked table, some cases, a law. At most so
/// many tries are made with cases.
pub fn find(trial: &Trial, mutant: &Mutant, most: usize) -> Result<String, String> {
    let folder = trial.changed(mutant)?;
    if by_table(&verdict(&folder, Some("format"))?) {
        return Ok(String::from("worked"));
    }
    for some in tries(mutant, &trial.cases).into_iter().take(most) {
        let _ = fs::remove_dir_all(folder.join("crates/agree"));
        write_theorems(&folder, &some).map_err(|error| error.to_string())?;
        let mut names = by_cases(&verdict(&folder, None)?);
        if !names.is_empty() {
            names.sort_by_key(|name| goes_by_seed(name));
            let count = names.len();
            names.truncate(NAMED);
            return Ok(format!("{count} of {}: {}", some.len(), names.join(" ")));
        }
    }
    trial.add_laws(&folder)?;
    let verdict = verdict(&folder, Some("format"))?;
    let laws = verdict.refusals.iter().map(|one| one.declaration.as_str());
    match verdict.proved {
        false => Ok(format!("law {}", laws.collect::<Vec<&str>>().join(" "))),
        true => Err(String::from("nothing sees it")),
    }
}

/// Whether a case changes with the seed: a list had better name another.
fn goes_by_seed(name: &str) -> bool {
    let mesh = name.strip_prefix("mesh-");
    name.starts_with("generated-") || mesh.is_some_and(|rest| rest.starts_with(char::is_numeric))
}

/// The words of a name that it shares with cases of the same sort.
fn family(name: &str) -> Vec<&str> {
    let words = name.split('-');
    let letters = words.filter(|word| !word.starts_with(char::is_numeric));
    letters.take(4).collect()
}

/// All cases, some at a time, those first that a change is likely to meet: some
/// generated files and some fixed ones, a fixed one of each family, all meshes.
/// For what is written the meshes come first.
fn tries<'a>(mutant: &Mutant, cases: &'a [Case]) -> Vec<Vec<&'a Case>> {
    let (files, meshes): (Vec<&Case>, Vec<&Case>) =
        cases.iter().partition(|one| one.sort == Sort::File);
    let (generated, fixed): (Vec<&Case>, Vec<&Case>) =
        files.into_iter().partition(|one| goes_by_seed(&one.name));
    let mut families = HashSet::new();
    let (firsts, others): (Vec<&Case>, Vec<&Case>) = fixed
        .into_iter()
        .partition(|one| families.insert(family(&one.name)));
    let (soon, late) = generated.split_at(GENERATED_FIRST.min(generated.len()));
    let every = firsts.len().div_ceil(FIXED_FIRST).max(1);
    let mut mixed = soon.to_vec();
    mixed.extend(firsts.iter().step_by(every));
    let later = [others, late.to_vec()].concat();
    let mut list = vec![mixed, firsts];
    list.extend(later.chunks(CASES_A_TRY).map(<[&Case]>::to_vec));
    let writes = ["Written", "Canonical", "Limits", "Mesh"];
    let written = writes.iter().any(|word| mutant.file.contains(word));
    list.insert(if written { 0 } else { 2 }, meshes);
    list
}

#[cfg(test)]
mod tests {
    use super::*;
    use crate::all_cases;
    use crate::mutants::parse;

    #[test]
    fn every_case_is_tried() {
        let cases = all_cases(1, 100, 50);
        let paragraph = "label: l\nfile: specs/F.antt\nold: a\nnew: b\nseen: ?\n";
        let mutant = parse(paragraph).expect("a list").remove(0);
        let tried: HashSet<String> = tries(&mutant, &cases)
            .into_iter()
            .flatten()
            .map(|one| one.name.clone())
            .collect();
        assert_eq!(tried.len(), cases.len());
    }
}
