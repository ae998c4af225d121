//! The specification's own text, as far as a theorem has to name its parts.

use std::fs;
use std::io;
use std::path::Path;

/// The module of worked cases, which defines nothing for others.
pub const WORKED: &str = "Worked";

/// The `use` lines for all definitions that stay shut by themselves, and their
/// names for an `unfolding` line.
pub struct Book {
    pub uses: String,
    pub names: String,
}

impl Book {
    /// Of all modules that the folder's `Lib.antt` lists.
    pub fn read(specs: &Path) -> io::Result<Book> {
        let mut uses = String::new();
        let mut names = Vec::new();
        for module in listed_modules(&fs::read_to_string(specs.join("Lib.antt"))?) {
            let text = fs::read_to_string(specs.join(format!("{module}.antt")))?;
            let found = shut_definitions(&text);
            if !found.is_empty() {
                uses.push_str(&format!(
                    "use Rattle.format.specs.{module}.{{{}}}\n",
                    found.join(", ")
                ));
            }
            names.extend(found);
        }
        Ok(Book {
            uses,
            names: names.join(" "),
        })
    }
}

fn listed_modules(text: &str) -> Vec<&str> {
    let modules = text
        .lines()
        .filter_map(|line| line.strip_prefix("pub mod "));
    modules.filter(|&name| name != WORKED).collect()
}

/// The names that `unfoldable pub NAME : ..` declares.
fn shut_definitions(text: &str) -> Vec<String> {
    let lines = text.lines();
    let declared = lines.filter_map(|line| line.strip_prefix("unfoldable pub "));
    let names = declared.filter_map(|rest| rest.split(' ').next());
    names.map(String::from).collect()
}

#[cfg(test)]
mod tests {
    use super::*;

    #[test]
    fn definitions_are_found() {
        assert_eq!(listed_modules("pub mod Bytes\npub mod Worked\n"), ["Bytes"]);
        let text = "abbrev pub u2 : Reader ℕ\nunfoldable pub ◌is◌ : ℕ\n◌is◌ = 0\n";
        assert_eq!(shut_definitions(text), ["◌is◌"]);
    }
}
