//! A whole log through the log program and through the second program's.

use cube_reference::gen::write_log;
use std::env::temp_dir;
use std::fs::{remove_file, File};
use std::io::{self, BufWriter};
use std::path::Path;
use std::process::{Command, Stdio};
use std::time::Instant;

/// Seconds of a program that reads the log and whose output nobody keeps, the
/// least of five runs.
fn seconds(program: &Path, log: &Path) -> io::Result<f64> {
    let mut best = f64::MAX;
    for _ in 0..5 {
        let began = Instant::now();
        let status =
            Command::new(program).stdin(File::open(log)?).stdout(Stdio::null()).status()?;
        assert!(status.success(), "{} failed", program.display());
        best = best.min(began.elapsed().as_secs_f64());
    }
    Ok(best)
}

/// Seconds of both programs on one log; the seed's remainder by 11 is its n.
pub fn time(seed: u64, frames: u64, programs: [&Path; 2]) -> io::Result<[f64; 2]> {
    let log = temp_dir().join(format!("cube-bench-{}.log", std::process::id()));
    write_log(seed, frames, BufWriter::new(File::create(&log)?))?;
    let times = (seconds(programs[0], &log), seconds(programs[1], &log));
    remove_file(&log)?;
    Ok([times.0?, times.1?])
}
