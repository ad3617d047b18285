//! Writes a random log of FRAMES frames, the set-up included, to standard
//! output. The same SEED and FRAMES give the same log.

use std::io::{stdout, BufWriter};
use std::process::ExitCode;

fn main() -> ExitCode {
    let arguments: Vec<String> = std::env::args().skip(1).collect();
    let numbers: Vec<u64> = arguments.iter().filter_map(|a| a.parse().ok()).collect();
    let (&[seed, frames], 2) = (&numbers[..], arguments.len()) else {
        eprintln!("usage: cube-gen SEED FRAMES");
        return ExitCode::from(2);
    };
    match cube_reference::gen::write_log(seed, frames, BufWriter::new(stdout().lock())) {
        Ok(()) => ExitCode::SUCCESS,
        Err(error) => {
            eprintln!("cube-gen: {error}");
            ExitCode::FAILURE
        }
    }
}
