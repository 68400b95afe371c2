//! The command `rinnamoyle`, for the desk.

mod command;

use std::io::Write;
use std::process::ExitCode;

fn main() -> ExitCode {
    let words: Vec<_> = std::env::args_os().skip(1).collect();
    match command::run(&words) {
        Ok(said) => told(&said),
        Err(trouble) => {
            eprintln!("rinnamoyle: {trouble}");
            ExitCode::from(command::REFUSED)
        }
    }
}

fn told(said: &command::Said) -> ExitCode {
    match std::io::stdout().write_all(said.text.as_bytes()) {
        Ok(()) => ExitCode::from(said.status),
        Err(_) => ExitCode::from(command::REFUSED),
    }
}
