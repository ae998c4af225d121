//! Runs the program that prints the listing on many files, one process a file,
//! and compares what it prints with the second program's listing, byte by byte.
#![forbid(unsafe_code)]

mod compare;
mod inputs;
mod program;

use std::path::PathBuf;
use std::process::ExitCode;

use compare::Difference;

const HELP: &str = "\
listings: compares the program that prints the listing with the second program

usage: listings PROGRAM --seed S --count N

Runs PROGRAM on the fixed files (the readings, the samples, the targeted and
the boundary files, inputs that are too long) and on N generated ones. Stops
with status 1 at the first file on which the two differ.
";

struct Order {
    program: PathBuf,
    seed: u64,
    count: usize,
}

fn main() -> ExitCode {
    let arguments: Vec<String> = std::env::args().skip(1).collect();
    if arguments
        .iter()
        .any(|word| word == "--help" || word == "-h")
    {
        print!("{HELP}");
        return ExitCode::SUCCESS;
    }
    let Some(order) = order(&arguments) else {
        eprint!("{HELP}");
        return ExitCode::from(2);
    };
    let inputs = inputs::fixed().chain(inputs::generated(order.seed).take(order.count));
    match compare::compare(|input| program::run(&order.program, input), inputs) {
        Ok(Ok(counts)) => {
            println!("{counts}");
            ExitCode::SUCCESS
        }
        Ok(Err(difference)) => {
            report(&difference);
            ExitCode::from(1)
        }
        Err(error) => {
            eprintln!("listings: {error}");
            ExitCode::from(1)
        }
    }
}

fn order(arguments: &[String]) -> Option<Order> {
    let (mut program, mut seed, mut count) = (None, None, None);
    let mut words = arguments.iter();
    while let Some(word) = words.next() {
        match word.as_str() {
            "--seed" => seed = words.next()?.parse().ok(),
            "--count" => count = words.next()?.parse().ok(),
            other if !other.starts_with('-') && program.is_none() => {
                program = Some(PathBuf::from(other));
            }
            _ => return None,
        }
    }
    Some(Order {
        program: program?,
        seed: seed?,
        count: count?,
    })
}

fn report(difference: &Difference) {
    println!("they differ on {}", difference.name);
    println!("the file: {}", difference.seen_in_hexadecimal());
    println!("the second program:\n{}", difference.expected);
    println!("the program:\n{}", difference.printed);
}
