//! Records that load: subcubes placed at random, and the ends of lists.

use cube_reference::gen::Log;
use cube_reference::record::{dimension, held_nodes, holder, set_holder, set_stars, Record};
use cube_reference::rng::Rng;
use cube_reference::session::fresh;
use cube_reference::{call, load};

use crate::input;

/// The nodes of a job, ascending, each behind it.
pub type Job = Vec<(u16, u16)>;

/// What each job holds.
pub fn jobs(record: &Record) -> Vec<Job> {
    held_nodes(record).chunk_by(|a, b| a.0 == b.0).map(<[_]>::to_vec).collect()
}

/// A job that holds nothing.
pub fn unused(rng: &mut Rng, record: &Record) -> u16 {
    let held = held_nodes(record);
    let near = (1..).find(|job| held.iter().all(|(other, _)| other != job)).expect("few are held");
    let any = rng.number() as u16;
    let taken = any == 0 || held.iter().any(|(job, _)| *job == any);
    if taken || rng.one_in(2) {
        near
    } else {
        any
    }
}

/// Makes a job the holder of these nodes, with these star bits.
pub fn give(record: &mut Record, nodes: &[u32], job: u16, stars: u16) {
    for node in nodes {
        set_holder(record, *node, job);
        set_stars(record, *node, stars);
    }
}

/// A record as `input::valid_record` draws it, but what is held are subcubes, at
/// least one.
pub fn placed(rng: &mut Rng, n: u32) -> Record {
    let mut record = input::valid_record(rng, n);
    let nodes: Vec<u32> = (0..1 << n).collect();
    give(&mut record, &nodes, 0, 0);
    for _ in 0..1 + rng.below(24) {
        let mask = nodes.len() as u32 - 1;
        let stars = rng.number() as u32 & rng.number() as u32 & mask;
        let lowest = rng.number() as u32 & !stars & mask;
        let vertices: Vec<u32> = (0..=mask).filter(|node| node & !stars == lowest).collect();
        if vertices.iter().all(|node| holder(&record, *node) == 0) {
            let job = unused(rng, &record);
            give(&mut record, &vertices, job, stars as u16);
        }
    }
    record
}

/// What a list of calls leaves by the second program.
fn end(rng: &mut Rng, mut record: Record) -> Record {
    let (seed, count) = (rng.number(), 40 + u64::from(rng.below(300)));
    let mut log = Log::new(seed, count, &record);
    for _ in 0..count {
        let frame = log.next(&record);
        call(&mut record, &frame, &mut [0; 12]);
    }
    record
}

/// The end of a list that began at placed subcubes or at a fresh cube, if it
/// holds something, or subcubes as they were placed.
pub fn loaded(rng: &mut Rng, n: u32) -> Record {
    let begun = if rng.one_in(2) { fresh(n) } else { placed(rng, n) };
    let end = end(rng, begun);
    holding(rng, &end)
}

/// This record, mostly, if it loads and holds something; otherwise one that
/// does so.
pub fn holding(rng: &mut Rng, record: &Record) -> Record {
    if load(record) == 0 && !jobs(record).is_empty() && !rng.one_in(4) {
        return *record;
    }
    placed(rng, dimension(record))
}
