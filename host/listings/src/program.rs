//! One run of the program.

use std::io::{self, ErrorKind, Write};
use std::path::Path;
use std::process::{Command, Stdio};

/// What the program prints for an input. It need not read all of a longer
/// input, so a pipe that it closed is no error.
pub fn run(program: &Path, input: &[u8]) -> io::Result<Vec<u8>> {
    let mut child = Command::new(program)
        .stdin(Stdio::piped())
        .stdout(Stdio::piped())
        .spawn()?;
    let mut pipe = child.stdin.take().expect("the input is a pipe");
    match pipe.write_all(input) {
        Err(error) if error.kind() != ErrorKind::BrokenPipe => return Err(error),
        _ => drop(pipe),
    }
    let output = child.wait_with_output()?;
    if !output.status.success() {
        return Err(io::Error::other(format!("the program: {}", output.status)));
    }
    Ok(output.stdout)
}

#[cfg(test)]
mod tests {
    use super::*;

    #[test]
    fn gives_the_input_and_takes_the_output() {
        let printed = run(Path::new("cat"), b"some\nlines\n").expect("cat runs");
        assert_eq!(printed, b"some\nlines\n");
    }

    #[test]
    fn an_input_that_is_not_read_is_no_error() {
        let printed = run(Path::new("true"), &[0; 1 << 20]).expect("true runs");
        assert_eq!(printed, b"");
    }

    #[test]
    fn a_program_that_fails_is_an_error() {
        assert!(run(Path::new("false"), b"").is_err());
    }
}
