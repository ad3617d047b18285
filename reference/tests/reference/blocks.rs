//! Document 02, (a), judged by its sentence: what a best fit is among the free
//! buddy members.

/// A buddy member: its lowest label and its size.
type Block = (usize, usize);

fn is_free(block: Block, free: &[bool]) -> bool {
    free[block.0..][..block.1].iter().all(|free| *free)
}

fn contains(outer: Block, inner: Block) -> bool {
    outer.0 <= inner.0 && inner.0 + inner.1 <= outer.0 + outer.1
}

/// The free buddy members: of each size, those at its multiples.
fn free_members(free: &[bool]) -> Vec<Block> {
    let sizes = (0..=free.len().ilog2()).map(|dimension| 1 << dimension);
    let members = sizes.flat_map(|size| (0..free.len()).step_by(size).map(move |low| (low, size)));
    members.filter(|block| is_free(*block, free)).collect()
}

/// Those of them that are in no larger one.
pub fn maximal(free: &[bool]) -> Vec<Block> {
    let members = free_members(free);
    let is_in_larger =
        |block: &Block| members.iter().any(|other| other.1 > block.1 && contains(*other, *block));
    members.iter().filter(|block| !is_in_larger(block)).copied().collect()
}

/// Lowest label and stars of the part that is granted, if there is one, and the
/// number of maximal free blocks. The block is large enough, and each other one
/// that is so too is larger, or as large with a higher lowest label.
pub fn best_fit(k: u8, free: &[bool]) -> (Option<(usize, usize)>, u16) {
    let (blocks, size) = (maximal(free), 1 << k);
    let is_before =
        |one: &Block, other: &Block| one.1 < other.1 || one.1 == other.1 && one.0 <= other.0;
    let enough: Vec<&Block> = blocks.iter().filter(|block| block.1 >= size).collect();
    let is_best = |block: &&&Block| enough.iter().all(|other| is_before(block, other));
    let best = enough.iter().find(is_best);
    (best.map(|block| (block.0, size - 1)), blocks.len() as u16)
}
