//! Records in which every node is held.

use cube_reference::record::{dimension, set_stars, stars, Record};
use cube_reference::rng::Rng;

use crate::subcubes::give;

fn all(record: &Record) -> Vec<u32> {
    (0..1 << dimension(record)).collect()
}

/// By one job.
pub fn of_one(rng: &mut Rng, mut record: Record) -> Record {
    let all = all(&record);
    give(&mut record, &all, rng.number() as u16 | 1, (all.len() - 1) as u16);
    record
}

/// By one job, the last node having other star bits.
pub fn of_one_but_last(rng: &mut Rng, record: Record) -> Record {
    let (mut record, last) = (of_one(rng, record), (1 << dimension(&record)) - 1);
    let other = stars(&record, last) ^ 1 << rng.below(16);
    set_stars(&mut record, last, other);
    record
}

/// By as many jobs as there are nodes: an odd factor gives no number twice.
pub fn of_each(rng: &mut Rng, mut record: Record) -> Record {
    let factor = rng.number() as u16 | 1;
    for node in all(&record) {
        give(&mut record, &[node], (node as u16 + 1).wrapping_mul(factor), 0);
    }
    record
}

/// As many, but one of them has a second node; there are at least two.
pub fn of_each_but_one(rng: &mut Rng, record: Record) -> Record {
    let (factor, nodes) = (rng.number() as u16 | 1, 1 << dimension(&record));
    let (one, apart) = (rng.below(nodes), 1 + rng.below(nodes - 1));
    let mut record = of_each(rng, record);
    [one, (one + apart) % nodes].iter().for_each(|node| give(&mut record, &[*node], factor, 0));
    record
}

/// By pairs of neighbours in one direction, of n at least 1.
pub fn of_pairs(rng: &mut Rng, mut record: Record) -> Record {
    let (factor, star) = (rng.number() as u16 | 1, 1 << rng.below(dimension(&record)));
    for node in all(&record) {
        let lowest = node as u16 & !star;
        give(&mut record, &[node], (lowest + 1).wrapping_mul(factor), star);
    }
    record
}
