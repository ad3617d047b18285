//! The rows that take one build of the library more than a tenth longer than
//! another build, or all rows. `bench/slower` builds and runs this.

use cube_bench::options::Options;
use cube_bench::parts::{self, Part};
use cube_bench::rows::{Call, Row};
use cube_bench::time::{self, Times};
use std::process::ExitCode;

/// `cube_call` of one build, under the name that the build's copy has.
macro_rules! frame_call {
    ($name:ident) => {{
        extern "C" {
            fn $name(
                record: *mut u8,
                record_len: usize,
                frame: *const u8,
                frame_len: usize,
                reply: *mut u8,
                reply_len: usize,
            ) -> u32;
        }
        |record: &mut [u8], frame: &[u8], reply: &mut [u8]| {
            let (r, f, a) = (record.as_mut_ptr(), frame.as_ptr(), reply.as_mut_ptr());
            // Three buffers that do not overlap, each lent for the call.
            unsafe { $name(r, record.len(), f, frame.len(), a, reply.len()) }
        }
    }};
}

/// `cube_load` of one build likewise.
#[cfg(feature = "loads")]
macro_rules! loading_call {
    ($name:ident) => {{
        extern "C" {
            fn $name(record: *const u8, record_len: usize) -> u32;
        }
        |record: &mut [u8], _: &[u8], _: &mut [u8]| {
            // The buffer is lent for the call.
            unsafe { $name(record.as_ptr(), record.len()) }
        }
    }};
}

/// The newer build's call and the older one's.
type Builds = [Call; 2];

const FRAMES: Builds = [frame_call!(newer_cube_call), frame_call!(older_cube_call)];

#[cfg(feature = "loads")]
const LOADS: Option<Builds> =
    Some([loading_call!(newer_cube_load), loading_call!(older_cube_load)]);

#[cfg(not(feature = "loads"))]
const LOADS: Option<Builds> = None;

/// What answers a row; nothing if a build hasn't its call.
fn builds(row: &Row) -> Option<Builds> {
    if row.is_load() {
        LOADS
    } else {
        Some(FRAMES)
    }
}

/// What is still taken for equal.
const TENTH: f64 = 1.1;

fn print(row: &Row, times: &Times) {
    let (took, ratio) = (times.of_calls(), times.slower());
    println!("{row:74} {:>8.0} ns {:>9.0} {ratio:>6.2}", took[0], took[1]);
}

fn answered_alike(row: &Row) -> bool {
    builds(row).is_some_and(|[newer, older]| row.after(newer) == row.after(older))
}

/// How many rows of a part that are answered differently are named one by one.
const NAMED: usize = 3;

/// The rows of a part that both builds answer alike, and how many there are
/// besides; these are not timed, and named one by one if they are few.
fn by_answer(part: Part) -> (Vec<Row>, usize) {
    let rows = part.rows.len();
    let (same, others): (Vec<_>, Vec<_>) = part.rows.into_iter().partition(answered_alike);
    if others.len() > NAMED {
        println!("{:74} answered differently, {} of {rows} rows", part.title, others.len());
    } else {
        others.iter().for_each(|row| println!("{row:74} answered differently"));
    }
    (same, others.len())
}

fn main() -> ExitCode {
    let options = Options::read();
    let (mut ratios, mut other) = (Vec::new(), 0);
    let title = if options.all { "all rows" } else { "slower by more than a tenth" };
    println!("{title:74} {:>11} {:>9} {:>6}", "newer", "older", "ratio");
    for part in parts::all(&options) {
        let in_doubt = |times: &Times| times.slower() > TENTH;
        let (rows, others) = by_answer(part);
        other += others;
        let times = time::times(&rows, |row| builds(row).expect("they answer").to_vec(), in_doubt);
        for (row, times) in rows.iter().zip(times) {
            if options.all || times.slower() > TENTH {
                print(row, &times);
            }
            ratios.push(times.slower());
        }
    }
    ratios.sort_by(f64::total_cmp);
    let slower = ratios.iter().filter(|ratio| **ratio > TENTH).count();
    let median = ratios.get(ratios.len() / 2).unwrap_or(&1.0);
    print!("{} rows, {slower} slower by more than a tenth; median {median:.2}", ratios.len());
    println!("; {other} more are answered differently");
    ExitCode::from(u8::from(slower > 0))
}
