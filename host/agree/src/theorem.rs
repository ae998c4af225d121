//! The theorems about cases, as text of the prover's language.

use crate::book::Book;
use crate::case::{Case, Sort};

/// What the specification answers to a file in lent tables: nine numbers, and
/// the tables after it.
const OF_FILES: &str = "said : List ℕ → Tables → List ℕ × Tables
said s t =
    let a : Answer = answer (rules s) t in
    let n = a.needs in
    (a.number ∷ a.place ∷ n.points ∷ n.polygons ∷ n.vertices ∷ n.names ∷ n.name_bytes ∷ a.skipped ∷ a.details ∷ [], tables_after (rules s) t)
";

/// What the specification answers to tables with a lent output: three numbers,
/// and the output after it.
const OF_MESHES: &str = "said : Tables → List ℕ → List ℕ × List ℕ
said t out =
    let w : Written = written t (length out) in
    (w.number ∷ w.place ∷ w.length ∷ [], output_after t out)
";

const USES: &str = "use Rattle.std.specs.Prelude.{ℕ, ◌≡◌, refl, List, [], ◌∷◌, length}
use Rattle.format.specs.Mesh.{Tables, lent}
use Rattle.format.specs.Answer.{Answer}
use Rattle.format.specs.Written.{Written}
";

/// Cases in one theorem. What a theorem may unfold is looked up once for all of
/// them; each has a line of its own in the proof, which a refusal points to.
const CASES_A_THEOREM: usize = 20;

/// A module with theorems about these cases, all of one sort.
pub fn module(book: &Book, sort: Sort, cases: &[&Case]) -> String {
    let said = match sort {
        Sort::File => OF_FILES,
        Sort::Mesh => OF_MESHES,
    };
    let mut text = format!("{USES}{}\n{said}", book.uses);
    for (number, some) in cases.chunks(CASES_A_THEOREM).enumerate() {
        assert!(some.iter().all(|case| case.sort == sort));
        text.push_str(&theorem(&format!("agrees_{number}"), book, some));
    }
    text
}

fn theorem(name: &str, book: &Book, cases: &[&Case]) -> String {
    let claims: Vec<&str> = cases.iter().map(|case| case.claim.as_str()).collect();
    let mut proofs = String::new();
    for (number, case) in cases.iter().enumerate() {
        let open = if number == 0 { "(" } else { " " };
        let close = if number + 1 == cases.len() { ")" } else { "," };
        proofs.push_str(&format!("    {open}refl{close}{MARK}{}\n", case.name));
    }
    format!(
        "\n{name} :\n    {}\nunfolding said {}\n{name} =\n{proofs}",
        claims.join("\n    × "),
        book.names
    )
}

/// What stands between the proof of a case and the case's name.
pub const MARK: &str = "  -- ";

#[cfg(test)]
mod tests {
    use super::*;

    #[test]
    fn each_case_has_its_line() {
        let case = |name| Case::new(name, Sort::Mesh, "a b", "c, d");
        let (one, other) = (case("one"), case("other"));
        let book = Book {
            uses: String::new(),
            names: String::from("rules"),
        };
        let text = theorem("t", &book, &[&one, &other]);
        let known = "
t :
    (said a b ≡ (c, d))
    × (said a b ≡ (c, d))
unfolding said rules
t =
    (refl,  -- one
     refl)  -- other
";
        assert_eq!(text, known);
    }
}
