//! The loading call on the records of a list and on changed ones, and what was
//! seen of it.

use std::fmt::{self, Display};

use cube_reference::record::{dimension, Record};
use cube_reference::rng::Rng;

use crate::changes::CHANGES;
use crate::input;
use crate::pair::Pair;
use crate::subcubes::{holding, jobs};

/// So often at least is each change to be made at every n where it can be.
const CHANGE: u64 = 10;

/// So many lists at least are to begin at a record that loads and holds subcubes,
/// at every n, and so many records to be loaded after a call of a list that began
/// at one that loads.
const START: u64 = 10;
const AFTER: u64 = 200;

/// So often at least is each number to be given for a record that isn't a known
/// change of one that loads.
const NUMBER: u64 = 100;

/// What the loading call gave, and for what, at each n.
#[derive(Default)]
pub struct Loads {
    /// Lists that begin at a record that loads, and of these where it has held
    /// subcubes.
    starts: [u64; 11],
    held: [u64; 11],
    /// Records after a call of these.
    after: [u64; 11],
    changes: [[u64; CHANGES.len()]; 11],
    /// Of any other records: 0, 1 and 18.
    others: [u64; 3],
}

/// Loads the record that a call left, always if the list began at one that
/// loads: then it gives 0. Now and then it also loads a changed one.
pub fn after_call(
    rng: &mut Rng,
    pair: &Pair,
    n: u32,
    loads: bool,
    seen: &mut Loads,
) -> Result<(), String> {
    let cube = pair.cube(n);
    let n = dimension(&cube) as usize;
    if loads {
        given(pair.load()?, 0, "after a call")?;
        seen.after[n] += 1;
    } else if rng.one_in(4) {
        seen.add_other(pair.load()?);
    }
    match rng.below(16) {
        0..2 => changed(rng, &cube, seen),
        2 => {
            let record = input::valid_record(rng, n as u32);
            seen.add_other(Pair::new(record.to_vec()).load()?);
            seen.add_other(Pair::new(input::damaged(rng, cube)).load()?);
            Ok(())
        }
        _ => Ok(()),
    }
}

/// Makes a change of a record that loads and holds something, and loads it.
fn changed(rng: &mut Rng, cube: &Record, seen: &mut Loads) -> Result<(), String> {
    let place = rng.below(CHANGES.len() as u32) as usize;
    let (name, least, number, make) = CHANGES[place];
    let (record, n) = (holding(rng, cube), dimension(cube) as usize);
    let bytes = if n < least { None } else { make(rng, record) };
    if let Some(bytes) = bytes {
        given(Pair::new(bytes).load()?, number, name)?;
        seen.changes[n][place] += 1;
    }
    Ok(())
}

fn given(number: u32, expected: u32, what: &str) -> Result<(), String> {
    match number == expected {
        true => Ok(()),
        false => Err(format!("both gave {number} for {what}, not {expected}")),
    }
}

impl Loads {
    /// Counts what a list begins at.
    pub fn add_start(&mut self, record: &Record, loads: bool) {
        let n = dimension(record) as usize;
        self.starts[n] += u64::from(loads);
        self.held[n] += u64::from(loads && !jobs(record).is_empty());
    }

    fn add_other(&mut self, number: u32) {
        let place = [0, 1, 18].iter().position(|known| *known == number);
        self.others[place.expect("a load gives 0, 1 or 18")] += 1;
    }

    /// What came too seldom, in words.
    pub fn rare(&self) -> Option<String> {
        if self.others.iter().any(|count| *count < NUMBER) {
            return Some(format!("loads of any records gave 0, 1 and 18 {:?} times", self.others));
        }
        let few = |n: &usize| self.held[*n] < START || self.after[*n] < AFTER;
        if let Some(n) = (0..11).find(few) {
            let (held, after) = (self.held[n], self.after[n]);
            return Some(format!("at n {n} {held} lists began at held subcubes, {after} loads"));
        }
        (0..11).find_map(|n| self.rare_change(n))
    }

    fn rare_change(&self, n: usize) -> Option<String> {
        let counts = CHANGES.iter().zip(self.changes[n]);
        let mut rare = counts.filter(|(change, count)| n >= change.1 && *count < CHANGE);
        let (change, count) = rare.next()?;
        Some(format!("at n {n} came {count} times, to be loaded: {}", change.0))
    }
}

impl Display for Loads {
    fn fmt(&self, to: &mut fmt::Formatter) -> fmt::Result {
        let sum = |counts: &[u64]| counts.iter().sum::<u64>();
        write!(to, "loads: {} lists begun at a record that loads", sum(&self.starts))?;
        write!(to, ", {} of them with held subcubes", sum(&self.held))?;
        write!(to, ", {} records after their calls", sum(&self.after))?;
        write!(to, ", other records by 0, 1 and 18 {:?}", self.others)?;
        for (place, change) in CHANGES.iter().enumerate() {
            let count: u64 = self.changes.iter().map(|counts| counts[place]).sum();
            write!(to, ", {count} {} ({})", change.0, change.2)?;
        }
        Ok(())
    }
}
