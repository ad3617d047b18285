//! The conditions of a random list's nodes: those that aren't good mostly lie
//! in a small subcube, so that D is often neither empty nor all n.

use crate::noise::{report, Frame};
use crate::record::{FAULTY, GOOD, UNCONFIRMED};
use crate::rng::Rng;

/// The most nodes that are made good before a relabel.
const MENDED_MOST: usize = 32;

/// The subcube of the nodes that differ from `centre` within `spread`: there
/// nodes are made silent or faulty.
pub struct Area {
    centre: u32,
    spread: u32,
}

impl Area {
    /// At most four directions, and once in eight times all.
    pub fn any(rng: &mut Rng, n: u32) -> Area {
        let last = (1 << n) - 1;
        let few = (0..rng.below(5)).fold(0, |few, _| few | 1 << rng.below(n.max(1)));
        let spread = if rng.one_in(8) { last } else { few & last };
        Area { centre: rng.below(last + 1), spread }
    }

    /// The smallest that has the nodes that aren't good; any if there are
    /// none, or if they spread over the whole cube.
    pub fn of(rng: &mut Rng, conditions: &[u8]) -> Area {
        let nodes = such(conditions, |condition, _| condition != GOOD);
        let centre = nodes.first().copied().unwrap_or(0);
        let spread = nodes.iter().fold(0, |spread, node| spread | (node ^ centre));
        if nodes.is_empty() || spread as usize == conditions.len() - 1 {
            return Area::any(rng, conditions.len().ilog2());
        }
        Area { centre, spread }
    }

    pub fn has(&self, node: u32) -> bool {
        (node ^ self.centre) & !self.spread == 0
    }

    pub fn node(&self, rng: &mut Rng) -> u32 {
        self.centre ^ (rng.number() as u32 & self.spread)
    }

    /// True once in `near` times for a node of the subcube, and once in `far`
    /// times for another; 0 is never.
    pub fn hits(&self, rng: &mut Rng, node: u32, (near, far): (u32, u32)) -> bool {
        let odds = if self.has(node) { near } else { far };
        odds != 0 && rng.one_in(odds)
    }

    /// Reports that make the other nodes good, if they aren't too many, and a
    /// few of the area silent, faulty or good. The area often moves before.
    pub fn settle(&mut self, rng: &mut Rng, conditions: &[u8]) -> Vec<Frame> {
        if rng.one_in(2) {
            *self = Area::any(rng, conditions.len().ilog2());
        }
        let is_mended = |condition, node| condition != GOOD && !self.has(node);
        let mended = such(conditions, is_mended).into_iter().take(MENDED_MOST);
        let mut reports: Vec<Frame> = mended.flat_map(|node| mend(conditions, node)).collect();
        for _ in 0..rng.below(7) {
            let node = self.node(rng);
            match rng.below(5) {
                0 => reports.extend(mend(conditions, node)),
                1 | 2 => reports.push(report(0x0102, node)),
                _ => reports.extend([report(0x0102, node), report(0x0103, node)]),
            }
        }
        reports
    }
}

/// Whether no node has been reported.
pub fn is_silent(conditions: &[u8]) -> bool {
    conditions.iter().all(|condition| *condition == UNCONFIRMED)
}

/// Whether more nodes aren't good than are mended.
pub fn is_wild(conditions: &[u8]) -> bool {
    conditions.iter().filter(|condition| **condition != GOOD).count() > MENDED_MOST
}

pub fn faulty(conditions: &[u8]) -> Vec<u32> {
    such(conditions, |condition, _| condition == FAULTY)
}

/// Reports that make a node good.
fn mend(conditions: &[u8], node: u32) -> Vec<Frame> {
    match conditions[node as usize] {
        FAULTY => vec![report(0x0103, node), report(0x0101, node)],
        _ => vec![report(0x0101, node)],
    }
}

/// The nodes whose condition and number are such.
fn such(conditions: &[u8], is_such: impl Fn(u8, u32) -> bool) -> Vec<u32> {
    let nodes = conditions.iter().zip(0..);
    nodes.filter(|(condition, node)| is_such(**condition, *node)).map(|(_, node)| node).collect()
}
