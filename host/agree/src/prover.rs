//! The prover run on a small repository, and what it refused.

use std::fs;
use std::io;
use std::path::{Path, PathBuf};
use std::process::Command;

use crate::theorem::MARK;

/// What the prover said.
#[derive(Clone, Debug, Default, PartialEq, Eq)]
pub struct Verdict {
    pub proved: bool,
    pub refusals: Vec<Refusal>,
}

/// A declaration that the prover refused.
#[derive(Clone, Debug, PartialEq, Eq)]
pub struct Refusal {
    /// The file, below the repository.
    pub file: String,
    pub line: usize,
    pub declaration: String,
    /// The case whose proof stands on that line, if one does.
    pub case: Option<String>,
}

/// `rt check` of one crate of a repository, or of all.
pub fn check(folder: &Path, name: Option<&str>) -> io::Result<Verdict> {
    let mut command = Command::new("rt");
    match name {
        Some(name) => command
            .arg("check")
            .current_dir(folder.join("crates").join(name)),
        None => command.args(["all", "check"]).current_dir(folder),
    };
    let run = command.output()?;
    let text = [run.stdout, run.stderr].concat();
    Ok(Verdict {
        proved: run.status.success(),
        refusals: refusals(
            &fs::canonicalize(folder)?,
            name,
            &String::from_utf8_lossy(&text),
        ),
    })
}

/// What is refused in what the prover said of one crate, or of all, each of which
/// has a line `== NAME` before its own.
fn refusals(folder: &Path, name: Option<&str>, text: &str) -> Vec<Refusal> {
    let within = |name: &str| folder.join("crates").join(name);
    let mut of = within(name.unwrap_or(""));
    let mut list = Vec::new();
    for line in text.lines() {
        match (name, line.strip_prefix("== ")) {
            (None, Some(next)) => of = within(next),
            _ => list.extend(refused(folder, &of, line).unwrap_or_default()),
        }
    }
    list
}

/// A line `FILE:LINE:COLUMN: error: `NAME`: ..`, whose file is below its crate's
/// folder, or a whole path. What was not checked, since it depends on what was
/// refused, is not proved either.
fn refused(folder: &Path, of: &Path, line: &str) -> Option<Vec<Refusal>> {
    let (place, told) = line.split_once(": error: ")?;
    let mut parts = place.rsplitn(3, ':');
    let (_column, number, path) = (parts.next()?, parts.next()?, parts.next()?);
    let number: usize = number.parse().ok()?;
    let path = of.join(path);
    let file: PathBuf = path.strip_prefix(folder).ok()?.components().collect();
    let case = fs::read_to_string(&path).ok().and_then(|text| {
        let proof = text.lines().nth(number - 1)?;
        let (_, name) = proof.split_once(MARK)?;
        Some(name.to_string())
    });
    let declarations: Vec<&str> = match told.split_once(" not checked: ") {
        Some((_, names)) => names.split(", ").filter_map(first_word).collect(),
        None => vec![told.split('`').nth(1).unwrap_or("")],
    };
    let each = declarations.into_iter().map(|declaration| Refusal {
        file: file.to_string_lossy().into_owned(),
        line: number,
        declaration: declaration.to_string(),
        case: case.clone(),
    });
    Some(each.collect())
}

fn first_word(text: &str) -> Option<&str> {
    text.split(' ').next()
}

#[cfg(test)]
mod tests {
    use super::*;

    /// A declaration at line 58 that was refused.
    fn at(file: &str, declaration: &str) -> Refusal {
        Refusal {
            file: String::from(file),
            line: 58,
            declaration: String::from(declaration),
            case: None,
        }
    }

    fn of_format(line: &str) -> Vec<Refusal> {
        refusals(Path::new("/a/b"), Some("format"), line)
    }

    #[test]
    fn a_refusal_is_read() {
        let known = [at("crates/format/proofs/Bounds.antt", "other_form")];
        let line = "/a/b/crates/format/proofs/Bounds.antt:58:55: error: `other_form`: `omega`: no";
        assert_eq!(of_format(line), known);
        let line = "./proofs/Bounds.antt:58:55: error: `other_form`: `omega`: no";
        assert_eq!(of_format(line), known);
        assert_eq!(of_format("2 of 2 crates ok"), []);
    }

    #[test]
    fn what_depends_on_a_refusal_is_refused() {
        let line = "./proofs/F.antt:58:5: error: 2 declarations that depend on `a_lemma`, which was rejected, were not checked: one, other (via one)";
        let file = "crates/format/proofs/F.antt";
        assert_eq!(of_format(line), [at(file, "one"), at(file, "other")]);
    }

    #[test]
    fn each_refusal_is_of_its_crate() {
        let line = "./proofs/F.antt:58:1: error: `lemma`: no";
        let text = format!("== format\n{line}\n== agree\n{line}\n== summary\n");
        let known =
            ["format", "agree"].map(|name| at(&format!("crates/{name}/proofs/F.antt"), "lemma"));
        assert_eq!(refusals(Path::new("/a/b"), None, &text), known);
    }
}
