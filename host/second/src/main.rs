//! The program: reads standard input and prints a listing, the canonical file
//! or the answer.
#![forbid(unsafe_code)]

use std::io::{self, Read, Write};
use std::process::ExitCode;

use second::limits::{FILE_BYTES, PROGRAM_BYTES};
use second::{listing, rules, write};

const HELP: &str = "\
second: an independent reader and writer of LWOB and LWO2 object files

usage: second COMMAND < FILE

commands:
  list       print the listing (at most 65,536 bytes of input)
  canonical  write the mesh as one canonical LWO2 file; a refusal goes to
             standard error, with exit code 1
  answer     print every field of the answer on one line; a refusal's line
             also has the fault and the offset of its top-level chunk
";

fn main() -> ExitCode {
    let arguments: Vec<String> = std::env::args().skip(1).collect();
    let command = match &arguments[..] {
        [one] => one.as_str(),
        _ => "",
    };
    let done = match command {
        "list" => list(),
        "canonical" => write_canonical(),
        "answer" => answer(),
        "--help" | "-h" | "help" => say(HELP.as_bytes()).map(|()| ExitCode::SUCCESS),
        _ => {
            eprint!("{HELP}");
            return ExitCode::from(2);
        }
    };
    done.unwrap_or_else(|error| {
        eprintln!("second: {error}");
        ExitCode::from(2)
    })
}

fn list() -> io::Result<ExitCode> {
    say(listing(&input(PROGRAM_BYTES)?).as_bytes())?;
    Ok(ExitCode::SUCCESS)
}

fn write_canonical() -> io::Result<ExitCode> {
    let (mesh, _, _) = match rules(&input(FILE_BYTES)?) {
        Ok(accepted) => accepted,
        Err(refusal) => return refuse(refusal.number(), refusal.place()),
    };
    let mut out = vec![0; FILE_BYTES];
    let written = write(&mesh.tables(), &mut out);
    if written.number != 0 {
        return refuse(written.number, written.place);
    }
    say(&out[..written.length as usize])?;
    Ok(ExitCode::SUCCESS)
}

fn refuse(number: u64, place: u64) -> io::Result<ExitCode> {
    eprintln!("refused {number} at {place}");
    Ok(ExitCode::from(1))
}

fn answer() -> io::Result<ExitCode> {
    let line = match rules(&input(FILE_BYTES)?) {
        Ok((mesh, skipped, details)) => {
            let tables = mesh.tables();
            format!(
                "number 0 place 0 points {} polygons {} vertices {} names {} name-bytes {} skipped {skipped} details {details}\n",
                mesh.points.len(),
                mesh.polygons.len(),
                tables.vertices.len(),
                mesh.names.len(),
                tables.name_bytes.len(),
            )
        }
        Err(refusal) => format!(
            "number {} place {} points 0 polygons 0 vertices 0 names 0 name-bytes 0 skipped 0 details 0 fault {:?} chunk {}\n",
            refusal.number(),
            refusal.place(),
            refusal.fault,
            refusal.chunk,
        ),
    };
    say(line.as_bytes())?;
    Ok(ExitCode::SUCCESS)
}

/// Reads standard input up to one byte past the limit, which is enough to see
/// that it is too long.
fn input(limit: usize) -> io::Result<Vec<u8>> {
    let mut bytes = Vec::new();
    io::stdin().take(limit as u64 + 1).read_to_end(&mut bytes)?;
    Ok(bytes)
}

fn say(bytes: &[u8]) -> io::Result<()> {
    let mut out = io::stdout().lock();
    out.write_all(bytes)?;
    out.flush()
}
