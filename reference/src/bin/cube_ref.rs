//! Reads a log on standard input and prints what document 01's "Log program"
//! says.

use std::io::{stdin, stdout};
use std::process::ExitCode;

fn main() -> ExitCode {
    match cube_reference::log::run(stdin().lock(), stdout().lock()) {
        Ok(_) => ExitCode::SUCCESS,
        Err(error) => {
            eprintln!("cube-ref: {error}");
            ExitCode::FAILURE
        }
    }
}
