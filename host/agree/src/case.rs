//! A case, and how its numbers are written for the prover.

use std::fmt::Write;

use second::Tables;

/// What a case is about, and so which of the specification's answers it tells.
#[derive(Clone, Copy, Debug, PartialEq, Eq)]
pub enum Sort {
    File,
    Mesh,
}

/// A case: what it is called, and that the specification answers it as the
/// second program does.
#[derive(Clone, Debug)]
pub struct Case {
    pub name: String,
    pub sort: Sort,
    /// `(said GIVEN ≡ (EXPECTED))`.
    pub claim: String,
}

impl Case {
    pub fn new(name: &str, sort: Sort, given: &str, expected: &str) -> Case {
        Case {
            name: word(name),
            sort,
            claim: format!("(said {given} ≡ ({expected}))"),
        }
    }
}

/// A name for the prover: letters, digits and single hyphens.
fn word(name: &str) -> String {
    let letters = |c: char| c.is_ascii_lowercase() || c.is_ascii_digit();
    let words: Vec<&str> = name
        .split(|c| !letters(c))
        .filter(|w| !w.is_empty())
        .collect();
    words.join("-")
}

/// Six tables, in the prover's language.
pub fn tables_term(tables: &Tables) -> String {
    format!(
        "(lent {} {} {} {} {} {})",
        list_term(&tables.points),
        list_term(&tables.polygons),
        list_term(&tables.vertices),
        list_term(&tables.names),
        list_term(&tables.name_bytes),
        list_term(&tables.records)
    )
}

/// A list of numbers, in the prover's language.
pub fn list_term<T: Copy + Into<u64>>(numbers: &[T]) -> String {
    let mut text = String::from("(");
    for &number in numbers {
        write!(text, "{} ∷ ", number.into()).unwrap();
    }
    text.push_str("[])");
    text
}

#[cfg(test)]
mod tests {
    use super::*;

    #[test]
    fn names_are_words() {
        assert_eq!(word("damaged: 1,024 vertices"), "damaged-1-024-vertices");
        assert_eq!(word("panel.lwo"), "panel-lwo");
    }

    #[test]
    fn lists_are_written_out() {
        assert_eq!(list_term::<u32>(&[]), "([])");
        assert_eq!(list_term(&[7u8, 8]), "(7 ∷ 8 ∷ [])");
    }
}
