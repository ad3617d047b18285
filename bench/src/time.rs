//! Times of calls by several programs, in nanoseconds.

use crate::rows::{Call, Record, Row};
use std::hint::black_box;
use std::time::{Duration, Instant};

/// The records of a batch: few enough to stay in the processor's first cache.
const BATCH: usize = 4;

/// Nanoseconds a turn, over at least 100 microseconds. A batch of records is
/// made ready before it is timed, so that no turn waits for its record's copy.
fn round(starts: &[Record], mut turn: impl FnMut(&mut Record)) -> f64 {
    let mut records = [starts[0]; BATCH];
    let mut next = starts.iter().cycle();
    let mut spent = Duration::ZERO;
    let mut turns = 0;
    while spent < Duration::from_micros(100) {
        records.fill_with(|| *next.next().expect("a cycle has no end"));
        black_box(&mut records);
        let began = Instant::now();
        records.iter_mut().for_each(&mut turn);
        spent += began.elapsed();
        turns += BATCH;
    }
    spent.as_nanos() as f64 / turns as f64
}

/// The least times of a row's call so far, by each program, and of the clock
/// that was read; and in each round the first program's time by the second's.
pub struct Times {
    clock: f64,
    least: Vec<f64>,
    ratios: Vec<f64>,
}

impl Times {
    fn none(programs: usize) -> Times {
        Times { clock: f64::MAX, least: vec![f64::MAX; programs], ratios: Vec::new() }
    }

    /// Some rounds more, in which the programs take turns.
    fn more(&mut self, row: &Row, programs: &[Call]) {
        let mut reply = [0; 12];
        for _ in 0..12 {
            self.clock = self.clock.min(round(&row.starts, |record| {
                black_box(record);
            }));
            let mut took = Vec::new();
            for (least, call) in self.least.iter_mut().zip(programs) {
                took.push(round(&row.starts, |record| {
                    black_box(call(black_box(record), &row.call, &mut reply));
                }));
                *least = least.min(took[took.len() - 1]);
            }
            self.ratios.push((took[0] - self.clock) / (took[1] - self.clock));
        }
    }

    /// What the calls took, without the clock.
    pub fn of_calls(&self) -> Vec<f64> {
        self.least.iter().map(|both| both - self.clock).collect()
    }

    /// The first program's time by the second's in the middle one of the
    /// rounds, in each of which both took their turns.
    pub fn median(&self) -> f64 {
        let mut ratios = self.ratios.clone();
        ratios.sort_by(f64::total_cmp);
        ratios[ratios.len() / 2]
    }

    /// How much longer the first program surely takes than the second: by the
    /// least times and by half of the rounds. Where the machine is busy with
    /// other things, only one of these is often too high.
    pub fn slower(&self) -> f64 {
        let took = self.of_calls();
        (took[0] / took[1]).min(self.median())
    }
}

/// The programs that time a row. All of them have to give the same numbers,
/// replies and records.
fn agreed(row: &Row, programs: Vec<Call>) -> Vec<Call> {
    let first = row.after(programs[0]);
    for program in &programs[1..] {
        for (ours, theirs) in first.iter().zip(row.after(*program)) {
            assert_eq!((ours.0, ours.1), (theirs.0, theirs.1), "{row}");
            assert!(ours.2 == theirs.2, "{row}: the records differ");
        }
    }
    programs
}

/// The times of rows, each by its programs. They are taken in several passes,
/// so that a row meets a while in which the machine is slow in one of them
/// only; rows that are in doubt get further passes.
pub fn times(
    rows: &[Row],
    programs: impl Fn(&Row) -> Vec<Call>,
    in_doubt: impl Fn(&Times) -> bool,
) -> Vec<Times> {
    let programs: Vec<_> = rows.iter().map(|row| agreed(row, programs(row))).collect();
    let mut all: Vec<_> = programs.iter().map(|programs| Times::none(programs.len())).collect();
    for pass in 0..12 {
        for ((row, programs), times) in rows.iter().zip(&programs).zip(&mut all) {
            if pass < 4 || in_doubt(times) {
                times.more(row, programs);
            }
        }
    }
    all
}
