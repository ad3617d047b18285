//! The sorts of accepted calls by the star bits that they meet and leave, in
//! random lists of calls.

use crate::cube::label;
use crate::frame::{self, Call};
use crate::record::{dimension, holder, map, stars, Record};

/// Each sort in words, and the least n at which it can come.
pub const SORTS: [(&str, usize); 6] = [
    ("granted star bits that the map moved", 2),
    ("granted star bits above 255", 9),
    ("growths that changed those of a node kept", 1),
    ("growths that took those of a node lost", 3),
    ("releases of nodes with star bits", 1),
    ("reports of a node with star bits", 1),
];

/// Of which sorts an accepted call is, given the record before and after it.
pub fn sorts(frame: &[u8], before: &Record, after: &Record) -> [bool; SORTS.len()] {
    let had = |node: u32| stars(before, node) != 0;
    let (mut is, mut nodes) = ([false; SORTS.len()], 0..1 << dimension(before));
    match frame::read(frame) {
        Ok(Call::Request { job, .. } | Call::Grow { job, .. }) => {
            let lowest = nodes.clone().find(|node| holder(after, *node) == job);
            let granted = stars(after, lowest.expect("a grant has a node")).into();
            is[0] = label(&map(before), granted) != granted;
            is[1] = granted > 255;
            let (kept, lost): (Vec<u32>, Vec<u32>) = nodes
                .filter(|node| holder(before, *node) == job)
                .partition(|node| holder(after, *node) == job);
            is[2] = kept.into_iter().any(|node| stars(before, node) != stars(after, node));
            is[3] = lost.into_iter().any(had);
        }
        Ok(Call::Release { job }) => {
            is[4] = nodes.any(|node| holder(before, node) == job && had(node));
        }
        Ok(Call::Good { node } | Call::Fault { node } | Call::Repaired { node }) => {
            is[5] = had(node.into());
        }
        _ => {}
    }
    is
}
