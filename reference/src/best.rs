//! Best fit among buddies: document 02, (a).

use crate::choose::Answer;
use crate::cube::ones;
use crate::family::{family, Subcube, BUDDY};

/// Of the maximal free blocks with dimension at least k the smallest, then the
/// one with the lowest label, gives its lowest part.
pub(crate) fn best_fit(n: u32, k: u32, free: impl Fn(u32) -> bool) -> Answer {
    let blocks = maximal_blocks(n, &free);
    let tried = blocks.len() as u32;
    let enough = blocks.into_iter().filter(|block| dimension(block) >= k);
    match enough.min_by_key(|block| (dimension(block), block.low)) {
        Some(Subcube { low, .. }) => Answer::Found { low, stars: ones(k), tried },
        None => Answer::NoneFree { count: tried },
    }
}

/// The free buddy members in no larger free buddy member, where `free` tells a
/// free label.
pub(crate) fn maximal_blocks(n: u32, free: &impl Fn(u32) -> bool) -> Vec<Subcube> {
    let members = (0..=n).flat_map(|dimension| family(BUDDY, n, dimension));
    members.filter(|block| is_free(block, free) && !is_in_larger(block, n, free)).collect()
}

pub(crate) fn dimension(block: &Subcube) -> u32 {
    block.stars.count_ones()
}

/// A buddy member's labels follow each other.
fn is_free(block: &Subcube, free: &impl Fn(u32) -> bool) -> bool {
    (block.low..=block.low | block.stars).all(free)
}

/// Whether one of the larger buddy members that have this one's labels is free.
fn is_in_larger(block: &Subcube, n: u32, free: &impl Fn(u32) -> bool) -> bool {
    let stars = (dimension(block) + 1..=n).map(ones);
    let mut larger = stars.map(|stars| Subcube { low: block.low & !stars, stars });
    larger.any(|larger| is_free(&larger, free))
}
