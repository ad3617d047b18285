//! Document 02, (n), no waste with one dead node: lists of plain requests by best
//! fit, from cubes with nothing held and at most one node not good.

mod dimensions;
mod seen;
mod start;

use cube_proved::frame;
use cube_reference::family::{BEST_FIT, BUDDY};
use cube_reference::record::{condition, conditions, dimension, holder, map, Record};
use cube_reference::record::{FAULTY, GOOD, UNCONFIRMED};
use cube_reference::rng::Rng;
use cube_reference::{call, IDENTITY};

use crate::input;
use crate::pair::Pair;
pub use seen::Seen;
use seen::LISTS;
use start::Start;

/// The lists of a seed, whose remainder by 11 is n: one, or more where n is small.
pub fn lists(seed: u64, seen: &mut Seen) -> Result<(), String> {
    let n = (seed % 11) as u32;
    let rng = &mut Rng::new(seed ^ 0x0f1e_2d3c);
    let count = if n <= 5 { 4 } else { 1 };
    (0..count).try_for_each(|_| list(rng, n, seen))
}

/// One list. Its requests are by distinct jobs and meet none of 1 to 9.
fn list(rng: &mut Rng, n: u32, seen: &mut Seen) -> Result<(), String> {
    let mut start = start::any(rng, n)?;
    let drawn = dimensions::any(rng, n);
    let list = dimensions::filling(&drawn, n);
    seen.add_list(n, sorts(&start, n, &list), dimensions::orders(&drawn));
    let mut left = (1 << n) - u32::from(start.dead.is_some());
    for (k, job) in list.into_iter().zip(jobs(rng)) {
        let after = request(rng, &mut start.pair, job, k, left)
            .map_err(|what| format!("job {job}, k {k}, {left} nodes free: {what}"))?;
        seen.add_request(n, left, after);
        left = after;
    }
    Ok(())
}

/// Of which sorts of list one is.
fn sorts(start: &Start, n: u32, list: &[u8]) -> [bool; LISTS.len()] {
    let record = start.pair.cube(n);
    let has = |condition| conditions(&record).contains(&condition);
    let is_mapped = map(&record) != IDENTITY;
    [
        !has(UNCONFIRMED) && !has(FAULTY),
        has(UNCONFIRMED),
        has(FAULTY),
        is_mapped,
        is_mapped && start.is_relabelled,
        first_fit_wastes(record, list),
    ]
}

/// Jobs of any numbers: an odd factor gives none twice, and not 0.
fn jobs(rng: &mut Rng) -> impl Iterator<Item = u16> {
    let factor = rng.number() as u16 | 1;
    (1..=u16::MAX).map(move |place| place.wrapping_mul(factor))
}

/// What (n) says of a request where so many free nodes are left.
fn promised(k: u8, left: u32) -> u32 {
    if 1 << k <= left {
        0
    } else {
        14
    }
}

/// One request to both programs, held to the promise. Gives the free nodes left
/// after it, as many as the record has.
fn request(rng: &mut Rng, pair: &mut Pair, job: u16, k: u8, left: u32) -> Result<u32, String> {
    let length = 12 + rng.below(3) as usize;
    let number = pair.call(&frame::request(job, k, BEST_FIT), &input::bytes(rng, length))?;
    let expected = promised(k, left);
    if number != expected {
        return Err(format!("both gave {number}, not {expected}"));
    }
    let after = if number == 0 { left - (1 << k) } else { left };
    match free(&pair.proved) {
        counted if counted == after => Ok(after),
        counted => Err(format!("the record has {counted} free nodes then, not {after}")),
    }
}

/// How many nodes are good and unheld, by the record's bytes.
pub fn free(bytes: &[u8]) -> u32 {
    let record: &Record = bytes.try_into().expect("a record's size");
    let is_free = |node: &u32| condition(record, *node) == GOOD && holder(record, *node) == 0;
    (0..1 << dimension(record)).filter(is_free).count() as u32
}

/// Whether buddy in place of best fit refuses a request of the list though enough
/// nodes are free, by the second program.
fn first_fit_wastes(mut record: Record, list: &[u8]) -> bool {
    let mut left = free(&record);
    for (k, job) in list.iter().zip(1..) {
        let number = call(&mut record, &frame::request(job, *k, BUDDY), &mut [0; 12]);
        if number != promised(*k, left) {
            return true;
        }
        left -= if number == 0 { 1 << k } else { 0 };
    }
    false
}
