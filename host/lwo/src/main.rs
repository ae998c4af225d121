//! The command `lwo`: tells what LightWave object files hold, checks them, and writes them as
//! canonical LWO2 files.
#![deny(unsafe_code)]

mod command;

use std::process::ExitCode;

fn main() -> ExitCode {
    command::run(std::env::args_os().skip(1))
}
