//! Writes the files of the folder `samples` into the folder that is named:
//!
//!     cargo run --example samples -- ../samples
#![forbid(unsafe_code)]

use std::path::Path;
use std::process::ExitCode;
use std::{env, fs, io};

use cases::samples::samples;

fn main() -> ExitCode {
    let words: Vec<_> = env::args_os().skip(1).collect();
    let [folder] = &words[..] else {
        eprintln!("usage: samples FOLDER");
        return ExitCode::from(2);
    };
    match write_into(Path::new(folder)) {
        Ok(()) => ExitCode::SUCCESS,
        Err(error) => {
            eprintln!("samples: {}: {error}", Path::new(folder).display());
            ExitCode::from(1)
        }
    }
}

fn write_into(folder: &Path) -> io::Result<()> {
    for (name, bytes) in samples() {
        fs::write(folder.join(name), bytes)?;
    }
    Ok(())
}
