//! The program: changes a copy of the specification in one place at a time, and
//! sees that what the gate computes refuses each change.
#![forbid(unsafe_code)]

use std::fs;
use std::path::PathBuf;
use std::process::ExitCode;

use agree::mutants::{parse, Mutant};
use agree::search::find;
use agree::trial::Trial;
use agree::{all_cases, FILES, MESHES, SEED};

const HELP: &str = "\
mutants: changes of the specification, each of which the gate has to see

usage: mutants OUTDIR --rules CRATE --list FILE [--only WORD] [--find [--tries N]]

For each change of the list writes a copy of the specification's crate with the
change into OUTDIR, with what the list says sees it: the worked table, a law, or
one case. The prover has to refuse that, and to prove it of the specification as
it is. Exits with 1 if a change is not seen, if its old text does not stand in
the file once, or if the changed text is no specification any more.

--only WORD takes the changes whose label has that word. --find tries everything
that the gate computes, until something sees the change, and prints what;
--tries N ends that after N times some hundred cases.
";

struct Order {
    folder: PathBuf,
    rules: PathBuf,
    list: PathBuf,
    only: String,
    find: bool,
    tries: usize,
}

fn main() -> ExitCode {
    let arguments: Vec<String> = std::env::args().skip(1).collect();
    if arguments
        .iter()
        .any(|word| word == "--help" || word == "-h")
    {
        print!("{HELP}");
        return ExitCode::SUCCESS;
    }
    let Some(order) = order(&arguments) else {
        eprint!("{HELP}");
        return ExitCode::from(2);
    };
    match run(&order) {
        Ok(0) => ExitCode::SUCCESS,
        Ok(failures) => {
            println!("{failures} changes are not seen as the list says");
            ExitCode::from(1)
        }
        Err(error) => {
            eprintln!("mutants: {error}");
            ExitCode::from(1)
        }
    }
}

fn order(arguments: &[String]) -> Option<Order> {
    let (mut folder, mut rules, mut list) = (None, None, None);
    let (mut only, mut find, mut tries) = (String::new(), false, usize::MAX);
    let mut words = arguments.iter();
    while let Some(word) = words.next() {
        match word.as_str() {
            "--rules" => rules = Some(PathBuf::from(words.next()?)),
            "--list" => list = Some(PathBuf::from(words.next()?)),
            "--only" => only = words.next()?.clone(),
            "--find" => find = true,
            "--tries" => tries = words.next()?.parse().ok()?,
            other if !other.starts_with('-') && folder.is_none() => {
                folder = Some(PathBuf::from(other));
            }
            _ => return None,
        }
    }
    Some(Order {
        folder: folder?,
        rules: rules?,
        list: list?,
        only,
        find,
        tries,
    })
}

/// How many changes are not seen.
fn run(order: &Order) -> Result<usize, String> {
    let list = fs::read_to_string(&order.list).map_err(|error| error.to_string())?;
    let mutants = parse(&list)?;
    let mut taken: Vec<&Mutant> = mutants.iter().collect();
    taken.retain(|one| one.label.contains(&order.only));
    if taken.is_empty() {
        return Err(String::from("no change has that word in its label"));
    }
    let trial = Trial {
        folder: order.folder.clone(),
        rules: order.rules.clone(),
        cases: all_cases(SEED, FILES, MESHES),
    };
    if !order.find {
        trial.control(&taken)?;
    }
    let mut failures = 0;
    for mutant in &taken {
        let told = match order.find {
            true => find(&trial, mutant, order.tries),
            false => trial.seen(mutant),
        };
        match told {
            Ok(by) => println!("{}: {by}", mutant.label),
            Err(fault) => {
                failures += 1;
                println!("{}: NOT SEEN: {fault}", mutant.label);
            }
        }
        let _ = fs::remove_dir_all(trial.folder.join(&mutant.label));
    }
    println!(
        "{} changes of the specification, {failures} not seen",
        taken.len()
    );
    Ok(failures)
}
