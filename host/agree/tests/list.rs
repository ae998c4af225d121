//! The list of changes fits the specification, the laws and the cases as they
//! are. Whether each change is seen is for the program `mutants`.

use std::collections::HashSet;
use std::fs;
use std::path::{Path, PathBuf};

use agree::mutants::{parse, Mutant, Seen};
use agree::{all_cases, FILES, MESHES, SEED};

fn list() -> Vec<Mutant> {
    parse(include_str!("../mutants.txt")).expect("a list")
}

fn rules() -> PathBuf {
    Path::new(env!("CARGO_MANIFEST_DIR")).join("../../crates/format")
}

#[test]
fn every_old_text_stands_once() {
    for mutant in list() {
        let text = fs::read_to_string(rules().join(&mutant.file)).expect(&mutant.file);
        let changed = mutant.applied(&text);
        assert!(changed.is_ok(), "{}: {changed:?}", mutant.label);
    }
}

#[test]
fn every_case_is_there() {
    let cases = all_cases(SEED, FILES, MESHES);
    let names: HashSet<&str> = cases.iter().map(|one| one.name.as_str()).collect();
    for mutant in list() {
        if let Seen::Case(name) = &mutant.seen {
            assert!(names.contains(name.as_str()), "{}: {name}", mutant.label);
        }
    }
}

#[test]
fn every_law_is_there() {
    let laws = fs::read_to_string(rules().join("proofs/Bounds.antt")).expect("the laws");
    for mutant in list() {
        if let Seen::Law(name) = &mutant.seen {
            let stated = format!("\npub {name} :");
            assert!(laws.contains(&stated), "{}: {name}", mutant.label);
        }
    }
}
