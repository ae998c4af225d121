//! The small repository that the prover checks: a copy of the specification's
//! crate, and a crate of theorems about it.

use std::fs;
use std::io;
use std::path::Path;

use crate::book::{Book, WORKED};
use crate::case::{Case, Sort};
use crate::theorem;

/// Theorems in one module.
const CASES_A_MODULE: usize = 100;

/// A copy of the crate at `rules` without its proofs.
pub fn write_specification(folder: &Path, rules: &Path) -> io::Result<()> {
    fs::create_dir_all(folder)?;
    fs::write(folder.join("crates.txt"), "format:\n")?;
    for part in ["src", "specs"] {
        let copy = folder.join("crates/format").join(part);
        copy_folder(&rules.join(part), &copy)?;
    }
    Ok(())
}

/// Takes the worked table out of such a copy. Where the table is refused, the
/// prover does not come to the theorems about cases.
pub fn leave_worked_out(folder: &Path) -> io::Result<()> {
    let specs = folder.join("crates/format/specs");
    let list = specs.join("Lib.antt");
    let text = fs::read_to_string(&list)?;
    fs::write(&list, text.replace(&format!("pub mod {WORKED}\n"), ""))?;
    fs::remove_file(specs.join(format!("{WORKED}.antt")))
}

/// Into such a copy, a file of the crate's proofs and those that it uses.
pub fn write_law(folder: &Path, rules: &Path, name: &str) -> io::Result<()> {
    let copy = folder.join("crates/format/proofs");
    fs::create_dir_all(&copy)?;
    let mut names = vec![String::from(name)];
    let mut next = 0;
    while let Some(name) = names.get(next).cloned() {
        let file = format!("{name}.antt");
        let text = fs::read_to_string(rules.join("proofs").join(&file))?;
        for used in used_proofs(&text) {
            if !names.contains(&used) {
                names.push(used);
            }
        }
        fs::write(copy.join(&file), text)?;
        next += 1;
    }
    let list: String = names.iter().map(|name| format!("mod {name}\n")).collect();
    fs::write(copy.join("Lib.antt"), list)
}

/// The files of the crate's own proofs that a text uses.
fn used_proofs(text: &str) -> Vec<String> {
    let uses = text
        .lines()
        .filter_map(|line| line.strip_prefix("use Rattle.format.proofs."));
    uses.filter_map(|rest| rest.split(['.', ' ']).next())
        .map(String::from)
        .collect()
}

/// Beside such a copy, the theorems about these cases.
pub fn write_theorems(folder: &Path, cases: &[&Case]) -> io::Result<()> {
    let theorems = folder.join("crates/agree");
    fs::create_dir_all(theorems.join("src"))?;
    fs::create_dir_all(theorems.join("proofs"))?;
    fs::write(folder.join("crates.txt"), "format:\nagree: format\n")?;
    fs::write(
        theorems.join("src/lib.rt"),
        "// The specification computed on cases, as theorems: see proofs/.\n#![tactic(auto)]\n",
    )?;
    let book = Book::read(&folder.join("crates/format/specs"))?;
    let mut modules = String::new();
    for (word, sort) in [("Files", Sort::File), ("Meshes", Sort::Mesh)] {
        let of_sort: Vec<&Case> = cases
            .iter()
            .copied()
            .filter(|one| one.sort == sort)
            .collect();
        for (number, some) in of_sort.chunks(CASES_A_MODULE).enumerate() {
            modules.push_str(&format!("mod {word}{number}\n"));
            let file = format!("proofs/{word}{number}.antt");
            fs::write(theorems.join(file), theorem::module(&book, sort, some))?;
        }
    }
    fs::write(theorems.join("proofs/Lib.antt"), modules)
}

fn copy_folder(from: &Path, to: &Path) -> io::Result<()> {
    fs::create_dir_all(to)?;
    for entry in fs::read_dir(from)? {
        let entry = entry?;
        fs::copy(entry.path(), to.join(entry.file_name()))?;
    }
    Ok(())
}
