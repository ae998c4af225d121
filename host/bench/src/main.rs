//! The program: measures the proved library in one run, as ratios.
#![forbid(unsafe_code)]

mod inputs;
mod library;
mod measure;
mod once;
mod report;

use std::process::ExitCode;

const HELP: &str = "\
bench: measures the proved library against the second program and a copy

usage: bench [--rounds R] [--names]
       bench once TASK

Reads and writes a 10 MB LWO2 grid and a 1.4 MB LWOB grid, and reads an LWOB grid
of 3 KB, each with the proved library, with the second program, and as a copy of
the same bytes with a byte swap; then reads LWO2 grids of 1 to 16 MB. Times are the best of R rounds (9),
everything once in each round; tables and output are cleared before each call.
With --names lists of 2,000 names, of 250 bytes and of 2, are read too. Exits
with 1 where the library and the second program do not give the same.

once does one thing once, for a tool that counts instructions, such as
valgrind --tool=callgrind --toggle-collect=lwo_read. Its tasks:
  read-lwo2 read-lwob read-names-250 read-names-2 write-lwo2
  second-read-lwo2 second-read-lwob second-write-lwo2 copy-lwo2
";

struct Order {
    rounds: u32,
    names: bool,
}

fn main() -> ExitCode {
    let arguments: Vec<String> = std::env::args().skip(1).collect();
    let words: Vec<&str> = arguments.iter().map(String::as_str).collect();
    if words.contains(&"--help") || words.contains(&"-h") {
        print!("{HELP}");
        return ExitCode::SUCCESS;
    }
    let done = match &words[..] {
        ["once", task] => once::run(task).map(Ok),
        _ => order(&words).map(|order| report::print(order.rounds, order.names)),
    };
    match done {
        Some(Ok(())) => ExitCode::SUCCESS,
        Some(Err(what)) => {
            eprintln!("bench: {what}");
            ExitCode::from(1)
        }
        None => {
            eprint!("{HELP}");
            ExitCode::from(2)
        }
    }
}

fn order(words: &[&str]) -> Option<Order> {
    let mut order = Order {
        rounds: 9,
        names: false,
    };
    let mut words = words.iter();
    while let Some(word) = words.next() {
        match *word {
            "--rounds" => order.rounds = words.next()?.parse().ok()?,
            "--names" => order.names = true,
            _ => return None,
        }
    }
    (order.rounds > 0).then_some(order)
}
