//! The proved calls and the log program beside the second program, requests and
//! growths beside the bit-parallel limit, and best fit beside buddy: times in one
//! run, and their ratios.
//! `bench/run` builds what this needs and runs it.

mod logs;
mod table;

use cube_bench::options::Options;
use cube_bench::rows::{Call, Row};
use cube_bench::time::{self, Times};
use cube_bench::{limit, parts};
use cube_proved as proved;
use cube_reference as reference;
use std::path::Path;
use table::Line;

/// The programs that answer a row: the library, the second program and, for a
/// request or a growth at n = 10 that walks by another strategy than Gray, the
/// limit.
fn programs(row: &Row) -> Vec<Call> {
    if row.is_load() {
        return vec![|record, _, _| proved::load(record), |record, _, _| reference::load(record)];
    }
    let asks = [[0x01, 0x02], [0x04, 0x02]].iter().any(|kind| row.call[2..4] == *kind);
    let walks = || row.after(reference::call).iter().all(|after| [0, 14].contains(&after.0));
    let mut programs: Vec<Call> = vec![proved::call, reference::call];
    if row.n == 10 && asks && row.call[7] != 1 && walks() {
        programs.push(limit::call);
    }
    programs
}

/// Whether more rounds may bring a row below its goal.
fn in_doubt(times: &Times) -> bool {
    let took = times.of_calls();
    let near = |program: usize, goal: f64| {
        took.get(program).is_some_and(|other| (goal..1.2 * goal).contains(&(took[0] / other)))
    };
    near(1, 1.0) || near(2, 10.0)
}

fn lines(rows: &[Row]) -> Vec<Line> {
    let times = time::times(rows, programs, in_doubt);
    let line = |(row, times): (&Row, &Times)| Line {
        name: row.to_string(),
        asked: row.asked(),
        unit: "ns",
        refused: row.after(programs(row)[0]).iter().any(|after| after.0 != 0),
        took: times.of_calls(),
        second: times.median(),
    };
    rows.iter().zip(&times).map(line).collect()
}

/// The log program's times, in milliseconds.
fn log_lines(programs: [&Path; 2]) -> std::io::Result<Vec<Line>> {
    let line = |n: u64| {
        let took = logs::time(22 + n, 1_000_000, programs)?.map(|s| s * 1000.0).to_vec();
        let (name, second) = (format!("log program, n {n}"), took[0] / took[1]);
        Ok(Line { name, asked: None, unit: "ms", refused: false, took, second })
    };
    [4, 7, 10].into_iter().map(line).collect()
}

fn main() -> std::io::Result<()> {
    let options = Options::read();
    let mut all = Vec::new();
    let title = "a log of a million frames";
    if let ([ours, theirs], true) = (&options.files[..], options.wants(title)) {
        all = log_lines([Path::new(ours), Path::new(theirs)])?;
        table::rows(title, &all);
    }
    let (whole, short): (Vec<_>, Vec<_>) =
        parts::all(&options).into_iter().partition(|part| part.each || options.all);
    for part in whole {
        let lines = lines(&part.rows);
        table::rows(&part.title, &lines);
        all.extend(lines);
    }
    if !short.is_empty() {
        table::heads();
    }
    for part in short {
        let lines = lines(&part.rows);
        table::part(&part.title, &lines);
        all.extend(lines);
    }
    table::beside_buddy(&all, options.all);
    table::summary(&all);
    Ok(())
}
