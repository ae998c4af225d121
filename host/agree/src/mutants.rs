//! Changes of the specification, each in one place, and what sees each: a test
//! of the tests. The list is `mutants.txt` beside this crate's `src`.

/// A change of the specification.
#[derive(Clone, Debug, PartialEq, Eq)]
pub struct Mutant {
    pub label: String,
    /// The file, below the specification's crate.
    pub file: String,
    pub old: String,
    pub new: String,
    pub seen: Seen,
}

/// What sees a change.
#[derive(Clone, Debug, PartialEq, Eq)]
pub enum Seen {
    /// The worked table of document 01, in `specs/Worked.antt`.
    Worked,
    /// A law of `proofs/Bounds.antt`.
    Law(String),
    /// A case.
    Case(String),
    /// Nothing, since it changes no answer, for this reason.
    Same(String),
    /// Not known yet: to be found.
    Unknown,
}

impl Mutant {
    /// The text with the change. The old text has to stand in it once.
    pub fn applied(&self, text: &str) -> Result<String, String> {
        match text.matches(&self.old).count() {
            1 => Ok(text.replacen(&self.old, &self.new, 1)),
            count => Err(format!(
                "its old text stands {count} times in {}, not once: {}",
                self.file, self.old
            )),
        }
    }
}

/// The mutants of a list: paragraphs of lines `label:`, `file:`, `old:`, `new:`
/// and `seen:` or `same:`, with comment lines that begin with `#`. `\n` in the
/// texts is a new line.
pub fn parse(list: &str) -> Result<Vec<Mutant>, String> {
    let lines: Vec<&str> = list.lines().filter(|line| !line.starts_with('#')).collect();
    let paragraphs = lines.split(|line| line.is_empty());
    let full = paragraphs.filter(|lines| !lines.is_empty());
    full.map(mutant).collect()
}

fn mutant(lines: &[&str]) -> Result<Mutant, String> {
    let [label, file, old, new, seen] = lines else {
        return Err(format!("not five lines: {}", lines.join(" / ")));
    };
    let field = |line: &str, key: &str| -> Result<String, String> {
        let value = line.strip_prefix(key).and_then(|l| l.strip_prefix(": "));
        let value = value.ok_or_else(|| format!("no '{key}: ' in {line}"))?;
        Ok(value.replace("\\n", "\n"))
    };
    Ok(Mutant {
        label: field(label, "label")?,
        file: field(file, "file")?,
        old: field(old, "old")?,
        new: field(new, "new")?,
        seen: match field(seen, "same") {
            Ok(reason) => Seen::Same(reason),
            Err(_) => seen_by(&field(seen, "seen")?),
        },
    })
}

fn seen_by(text: &str) -> Seen {
    match (text, text.strip_prefix("law ")) {
        (_, Some(law)) => Seen::Law(law.to_string()),
        ("worked", _) => Seen::Worked,
        ("?", _) => Seen::Unknown,
        (case, _) => Seen::Case(case.to_string()),
    }
}

#[cfg(test)]
mod tests {
    use super::*;

    const ONE: &str = "# a comment\nlabel: l\nfile: specs/F.antt\nold: a\nnew: b\nseen: ";

    fn one(seen: &str) -> Mutant {
        parse(&format!("{ONE}{seen}\n")).expect("a list").remove(0)
    }

    #[test]
    fn what_sees_it_is_told_apart() {
        assert_eq!(one("worked").seen, Seen::Worked);
        assert_eq!(one("law x_y").seen, Seen::Law(String::from("x_y")));
        assert_eq!(
            one("targeted-1").seen,
            Seen::Case(String::from("targeted-1"))
        );
        assert_eq!(one("?").seen, Seen::Unknown);
        assert!(parse("label: l\nfile: f\n").is_err());
    }

    #[test]
    fn a_stale_old_text_is_refused() {
        let mutant = one("worked");
        assert_eq!(mutant.applied("xay"), Ok(String::from("xby")));
        assert!(mutant.applied("xyz").is_err());
        assert!(mutant.applied("aa").is_err());
    }

    /// The list that is there has no two labels alike, and none is unknown.
    #[test]
    fn the_list_is_whole() {
        let list = parse(include_str!("../mutants.txt")).expect("a list");
        let mut labels: Vec<&str> = list.iter().map(|one| one.label.as_str()).collect();
        labels.sort_unstable();
        labels.dedup();
        assert_eq!(labels.len(), list.len());
        assert!(list.iter().all(|one| one.seen != Seen::Unknown));
        assert!(list.iter().all(|one| one.old != one.new));
    }
}
