//! What the programs in Rust share: how a program ends, and how its error is printed.
use crate::zirkoshe::Error;
use std::process::ExitCode;

/// Runs a program over the words of the command line, and prints its error.
pub fn run(program: impl FnOnce(&[String]) -> Result<(), Error>) -> ExitCode {
    let words: Vec<String> = std::env::args().skip(1).collect();
    match program(&words) {
        Ok(()) => ExitCode::SUCCESS,
        Err(error) => {
            println!("{error}");
            ExitCode::FAILURE
        }
    }
}
