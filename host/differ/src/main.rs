//! The program: compares the proved library with the second program.
#![forbid(unsafe_code)]

use std::process::ExitCode;
use std::time::{Duration, Instant};

use differ::counts::Counts;
use differ::library::Proved;
use differ::{check, files, hexadecimal, meshes, shrink};
use second::Tables;

const HELP: &str = "\
differ: compares the proved library with the second program

usage: differ --seed S [--files N] [--meshes M] [--seconds T] [--first K]
              [--many-names] [--say]

Reads every fixed file and N generated ones, and writes every fixed mesh and M
generated ones, with the library and with the second program, in many rooms:
whole answers, every word of every table, all output, and the words on both
sides. The generated ones are numbered from K, else from 0. With --seconds the
run ends after that time, and with neither --files nor --meshes not earlier.
With --many-names the fixed ones have those with tens of thousands of names
too. With --say each case is named before it is run, so that one which ends
the program is known.

Prints one line of counts and the time. At the first case on which the two
differ it prints that case, made small, as hexadecimal digits, with what
differs, and exits with 1.
";

struct Order {
    seed: u64,
    first: u64,
    files: u64,
    meshes: u64,
    until: Option<Duration>,
    many_names: bool,
    say: bool,
}

/// A case on which the two differ, in words.
struct Disagreement(String);

fn main() -> ExitCode {
    let arguments: Vec<String> = std::env::args().skip(1).collect();
    if arguments
        .iter()
        .any(|word| word == "--help" || word == "-h")
    {
        print!("{HELP}");
        return ExitCode::SUCCESS;
    }
    let Some(order) = order(&arguments) else {
        eprint!("{HELP}");
        return ExitCode::from(2);
    };
    let start = Instant::now();
    match run(&order, start) {
        Ok(counts) => {
            let seconds = start.elapsed().as_secs_f64();
            println!("seed {}: {counts}, {seconds:.1} s", order.seed);
            ExitCode::SUCCESS
        }
        Err(Disagreement(words)) => {
            println!("{words}");
            ExitCode::from(1)
        }
    }
}

fn order(arguments: &[String]) -> Option<Order> {
    let (mut seed, mut first) = (None, 0);
    let (mut many_names, mut say) = (false, false);
    let (mut files, mut meshes, mut seconds) = (None, None, None);
    let mut words = arguments.iter();
    while let Some(word) = words.next() {
        let mut number = || words.next()?.parse().ok();
        match word.as_str() {
            "--seed" => seed = Some(number()?),
            "--first" => first = number()?,
            "--files" => files = Some(number()?),
            "--meshes" => meshes = Some(number()?),
            "--seconds" => seconds = Some(number()?),
            "--many-names" => many_names = true,
            "--say" => say = true,
            _ => return None,
        }
    }
    // Where only a time is given, the time alone ends the run.
    let unsaid = if seconds.is_some() && files.is_none() && meshes.is_none() {
        u64::MAX
    } else {
        0
    };
    Some(Order {
        seed: seed?,
        first,
        files: files.unwrap_or(unsaid),
        meshes: meshes.unwrap_or(unsaid),
        until: seconds.map(Duration::from_secs),
        many_names,
        say,
    })
}

fn run(order: &Order, start: Instant) -> Result<Counts, Disagreement> {
    let mut counts = run_fixed(order)?;
    for step in 0..order.files.max(order.meshes) {
        if order.until.is_some_and(|until| start.elapsed() >= until) {
            break;
        }
        let number = order.first + step;
        if step < order.files {
            let one = files::generated(order.seed, number);
            let name = numbered(order, &one.name, number);
            counts.add(&check_file(order, &name, one.file)?);
        }
        if step < order.meshes {
            let one = meshes::generated(order.seed, number);
            let name = numbered(order, &one.name, number);
            counts.add(&check_mesh(order, &name, one.tables)?);
        }
    }
    Ok(counts)
}

fn run_fixed(order: &Order) -> Result<Counts, Disagreement> {
    let mut counts = Counts::default();
    let mut list = files::fixed();
    list.extend(files::large());
    if order.many_names {
        list.extend(files::many_names());
    }
    for one in list {
        counts.add(&check_file(order, &one.name, one.file)?);
    }
    let mut list = meshes::fixed();
    list.extend(meshes::large());
    if order.many_names {
        list.extend(meshes::many_names());
    }
    for one in list {
        counts.add(&check_mesh(order, &one.name, one.tables)?);
    }
    Ok(counts)
}

fn numbered(order: &Order, name: &str, number: u64) -> String {
    format!("{name}, seed {} number {number}", order.seed)
}

fn announce(order: &Order, sort: &str, name: &str) {
    if order.say {
        eprintln!("{sort} {name}");
    }
}

fn check_file(order: &Order, name: &str, file: Vec<u8>) -> Result<Counts, Disagreement> {
    announce(order, "file", name);
    check::file(&Proved, &file).map_err(|what| {
        let length = file.len();
        let small = shrink::file(file, |file| check::file(&Proved, file).is_err());
        let still = check::file(&Proved, &small).err().unwrap_or_default();
        Disagreement(format!(
            "differ: they differ on the file: {name} ({length} bytes)\n{what}\n\
             made small ({} bytes): {still}\n{}",
            small.len(),
            hexadecimal::of_bytes(&small),
        ))
    })
}

fn check_mesh(order: &Order, name: &str, tables: Tables) -> Result<Counts, Disagreement> {
    announce(order, "mesh", name);
    check::mesh(&Proved, &tables).map_err(|what| {
        let small = shrink::mesh(tables, |tables| check::mesh(&Proved, tables).is_err());
        let still = check::mesh(&Proved, &small).err().unwrap_or_default();
        Disagreement(format!(
            "differ: they differ on the mesh: {name}\n{what}\nmade small: {still}\n{}",
            hexadecimal::of_tables(&small).trim_end(),
        ))
    })
}
