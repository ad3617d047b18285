//! Records by what is held in them, for the loading call; all nodes are good.

use crate::patterns::used;
use crate::rows::Record;
use cube_reference::record::{dimension, holder, set_condition, set_holder, set_map, set_stars};
use cube_reference::record::{stars, GOOD};
use cube_reference::rng::Rng;
use cube_reference::session::fresh;
use cube_reference::{load, node, relabel};

pub fn last(n: u32) -> u32 {
    (1 << n) - 1
}

fn nodes(record: &Record) -> std::ops::Range<u32> {
    0..1 << dimension(record)
}

/// Nothing is held.
pub fn nothing(n: u32) -> Record {
    let mut record = fresh(n);
    nodes(&record).for_each(|x| set_condition(&mut record, x, GOOD));
    record
}

fn hold(record: &mut Record, x: u32, job: u16, stars: u32) {
    set_holder(record, x, job);
    set_stars(record, x, stars as u16);
}

/// One node is.
pub fn one(n: u32, x: u32) -> Record {
    let mut record = nothing(n);
    hold(&mut record, x, 7, 0);
    record
}

/// All nodes are, by subcubes of jobs 1, 2, .., whose k stars follow each other
/// from a bit on; of fewer stars where n has no more.
pub fn cubes(n: u32, k: u32, from: u32) -> Record {
    let mut record = nothing(n);
    let star_bits = last(k) << from & last(n);
    let lowest: Vec<u32> = nodes(&record).filter(|x| x & star_bits == 0).collect();
    for x in nodes(&record) {
        let place = lowest.iter().position(|low| *low == x & !star_bits);
        hold(&mut record, x, 1 + place.expect("a subcube has a lowest node") as u16, star_bits);
    }
    record
}

/// Each node has a job of its own, the first the last.
pub fn descending(n: u32) -> Record {
    let mut record = cubes(n, 0, 0);
    nodes(&record).for_each(|x| set_holder(&mut record, x, 65535 - x as u16));
    record
}

/// Every other node has a job of its own, the first too.
pub fn every_other(n: u32) -> Record {
    let mut record = cubes(n, 0, 0);
    nodes(&record).skip(1).step_by(2).for_each(|x| set_holder(&mut record, x, 0));
    record
}

/// Each node of the first half has a job of its own, the last half is one job's.
pub fn half_and_ones(n: u32) -> Record {
    let (mut record, half) = (cubes(n, 0, 0), 1 << n >> 1);
    (half..1 << n).for_each(|x| hold(&mut record, x, 5000, last(n) / 2));
    record
}

/// All jobs, from 1 to 1024, get other numbers: odd factors give none twice.
pub fn renamed(rng: &mut Rng, mut record: Record) -> Record {
    let (first, factor) = (rng.below(60000) as u16, rng.number() as u16 | 1);
    for x in nodes(&record) {
        let job = holder(&record, x);
        let other = if job == 0 { 0 } else { (job + first).wrapping_mul(factor) };
        set_holder(&mut record, x, other);
    }
    record
}

/// Each node has a job of its own, 1 to 2^n in any order.
pub fn shuffled(rng: &mut Rng, n: u32) -> Record {
    let mut record = cubes(n, 0, 0);
    for x in nodes(&record).rev() {
        let y = rng.below(x + 1);
        let [ours, theirs] = [x, y].map(|node| holder(&record, node));
        set_holder(&mut record, x, theirs);
        set_holder(&mut record, y, ours);
    }
    record
}

/// Buddies of drawn sizes, of which one in so many is held.
pub fn buddies(rng: &mut Rng, n: u32, odds: u32) -> Record {
    let (mut record, mut low, mut job) = (nothing(n), 0u32, 0);
    while low < 1 << n {
        let k = rng.below(n.min(low.trailing_zeros()) + 1);
        job += 1;
        if rng.one_in(odds) {
            (low..low + (1 << k)).for_each(|x| hold(&mut record, x, job, last(k)));
        }
        low += 1 << k;
    }
    renamed(rng, record)
}

/// About half is, after requests and releases by a strategy under a map that
/// takes every other direction first.
pub fn relabelled(n: u32, strategy: usize) -> Record {
    let (used, (map, _)) = (used(n, strategy), relabel(n, [0, 0x2aa % (1 << n)]));
    let mut record = nothing(n);
    set_map(&mut record, &map);
    for x in nodes(&used) {
        let star_bits = node(&map, stars(&used, x).into());
        hold(&mut record, node(&map, x), holder(&used, x), star_bits);
    }
    record
}

/// Any holders, of so many jobs, and any star bits, such as don't load; of n from
/// 1 on.
pub fn any(rng: &mut Rng, n: u32, jobs: u32) -> Option<Record> {
    let mut record = nothing(n);
    while n > 0 && load(&record) == 0 {
        for x in nodes(&record) {
            hold(&mut record, x, 1 + rng.below(jobs) as u16, rng.number() as u32 & last(n));
        }
    }
    (n > 0).then_some(record)
}

/// The star bits of a node are others.
pub fn starred(mut record: Record, x: u32) -> Record {
    let other = stars(&record, x) ^ 1;
    set_stars(&mut record, x, other);
    record
}

/// The last node isn't held; there are others.
pub fn lost(mut record: Record) -> Option<Record> {
    let n = dimension(&record);
    hold(&mut record, last(n), 0, 0);
    (n > 0).then_some(record)
}

/// The second of two nodes, which are two, is the first one's job's too.
pub fn joined(mut record: Record, [x, y]: [u32; 2]) -> Option<Record> {
    let job = holder(&record, x);
    set_holder(&mut record, y, job);
    (x != y).then_some(record)
}

/// A byte is another.
pub fn byte(mut record: Record, at: usize, value: u8) -> Option<Record> {
    let differs = record[at] != value;
    record[at] = value;
    differs.then_some(record)
}
