//! The program: writes the repository whose theorems say that the
//! specification answers as the second program does.
#![forbid(unsafe_code)]

use std::io;
use std::path::PathBuf;
use std::process::ExitCode;

use agree::case::Case;
use agree::repository::{write_specification, write_theorems};
use agree::{all_cases, FILES, MESHES, SEED};

const HELP: &str = "\
agree: has the prover compute the specification on cases

usage: agree OUTDIR --rules CRATE [--seed S] [--files N] [--meshes M]

Writes a repository into OUTDIR: a copy of the specification's crate, and
theorems that it answers as the second program does: on all fixed files and
meshes, and on N generated files and M generated meshes, or as many as the gate
has. Then run `rt all check` in OUTDIR. A line that it refuses has the case's name.
";

struct Order {
    folder: PathBuf,
    rules: PathBuf,
    seed: u64,
    files: usize,
    meshes: usize,
}

fn main() -> ExitCode {
    let arguments: Vec<String> = std::env::args().skip(1).collect();
    if arguments
        .iter()
        .any(|word| word == "--help" || word == "-h")
    {
        print!("{HELP}");
        return ExitCode::SUCCESS;
    }
    let Some(order) = order(&arguments) else {
        eprint!("{HELP}");
        return ExitCode::from(2);
    };
    match write_repository(&order) {
        Ok(count) => {
            println!("{count} cases");
            ExitCode::SUCCESS
        }
        Err(error) => {
            eprintln!("agree: {error}");
            ExitCode::from(1)
        }
    }
}

fn order(arguments: &[String]) -> Option<Order> {
    let (mut folder, mut rules) = (None, None);
    let (mut seed, mut files, mut meshes) = (SEED, FILES, MESHES);
    let mut words = arguments.iter();
    while let Some(word) = words.next() {
        match word.as_str() {
            "--rules" => rules = Some(PathBuf::from(words.next()?)),
            "--seed" => seed = words.next()?.parse().ok()?,
            "--files" => files = words.next()?.parse().ok()?,
            "--meshes" => meshes = words.next()?.parse().ok()?,
            other if !other.starts_with('-') && folder.is_none() => {
                folder = Some(PathBuf::from(other));
            }
            _ => return None,
        }
    }
    Some(Order {
        folder: folder?,
        rules: rules?,
        seed,
        files,
        meshes,
    })
}

fn write_repository(order: &Order) -> io::Result<usize> {
    let cases = all_cases(order.seed, order.files, order.meshes);
    let cases: Vec<&Case> = cases.iter().collect();
    write_specification(&order.folder, &order.rules)?;
    write_theorems(&order.folder, &cases)?;
    Ok(cases.len())
}
