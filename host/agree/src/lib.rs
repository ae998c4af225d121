//! Puts the specification and the second program side by side.
//!
//! The specification's definitions are executable: the prover computes them. A
//! case is a file with lent tables, or tables with a lent output, and what the
//! second program answers. A theorem says that the specification answers the
//! same. `rt all check` proves it by computation, or names the case and shows where
//! the two differ.
#![forbid(unsafe_code)]

pub mod book;
pub mod case;
pub mod files;
pub mod meshes;
pub mod mutants;
pub mod prover;
pub mod repository;
pub mod search;
pub mod theorem;
pub mod trial;

use case::Case;

/// What the gate has generated besides the fixed cases.
pub const SEED: u64 = 1;
pub const FILES: usize = 600;
pub const MESHES: usize = 300;

/// All fixed cases, and so many generated ones.
pub fn all_cases(seed: u64, files: usize, meshes: usize) -> Vec<Case> {
    let mut list = files::fixed();
    list.extend(files::generated(seed, files));
    list.extend(meshes::fixed());
    list.extend(meshes::generated(seed, meshes));
    list
}

#[cfg(test)]
mod tests {
    use super::*;
    use std::collections::HashSet;

    #[test]
    fn the_names_differ() {
        let list = all_cases(1, 400, 200);
        let names: HashSet<&str> = list.iter().map(|one| one.name.as_str()).collect();
        assert_eq!(names.len(), list.len());
    }

    #[test]
    fn the_same_seed_gives_the_same_cases() {
        let text = |seed| -> String {
            let list = all_cases(seed, 30, 30);
            list.iter().map(|one| one.claim.as_str()).collect()
        };
        assert_eq!(text(3), text(3));
        assert_ne!(text(3), text(4));
    }
}
