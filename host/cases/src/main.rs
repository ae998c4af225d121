//! The program: writes generated files into a folder, so that other programs
//! can be compared on them.
#![forbid(unsafe_code)]

use std::fs;
use std::io;
use std::path::Path;
use std::process::ExitCode;

use cases::files::files;

const HELP: &str = "\
cases: a seeded generator of LWOB and LWO2 test files

usage: cases OUTDIR --seed S --count N

Writes N files into OUTDIR, each of at most 65,536 bytes: valid ones, targeted
ones, mutated ones and ones at the program's bounds. The same seed gives the
same files.
";

struct Order {
    folder: String,
    seed: u64,
    count: u64,
}

fn main() -> ExitCode {
    let arguments: Vec<String> = std::env::args().skip(1).collect();
    if arguments
        .iter()
        .any(|word| word == "--help" || word == "-h")
    {
        print!("{HELP}");
        return ExitCode::SUCCESS;
    }
    let Some(order) = order(&arguments) else {
        eprint!("{HELP}");
        return ExitCode::from(2);
    };
    match write_files(&order) {
        Ok(()) => ExitCode::SUCCESS,
        Err(error) => {
            eprintln!("cases: {error}");
            ExitCode::from(1)
        }
    }
}

fn order(arguments: &[String]) -> Option<Order> {
    let mut folder = None;
    let mut seed = None;
    let mut count = None;
    let mut words = arguments.iter();
    while let Some(word) = words.next() {
        match word.as_str() {
            "--seed" => seed = words.next()?.parse().ok(),
            "--count" => count = words.next()?.parse().ok(),
            other if !other.starts_with('-') && folder.is_none() => {
                folder = Some(String::from(other));
            }
            _ => return None,
        }
    }
    Some(Order {
        folder: folder?,
        seed: seed?,
        count: count?,
    })
}

fn write_files(order: &Order) -> io::Result<()> {
    let folder = Path::new(&order.folder);
    fs::create_dir_all(folder)?;
    for (name, bytes) in files(order.seed).take(order.count as usize) {
        fs::write(folder.join(format!("{name}.lwo")), bytes)?;
    }
    Ok(())
}
