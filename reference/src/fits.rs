//! The sorts of requests and growths by best fit that random lists of calls
//! draw.

use crate::best::{dimension, maximal_blocks};
use crate::choose::{choose, Answer};
use crate::cube::{node, IDENTITY};
use crate::family::{Subcube, BEST_FIT, BUDDY};
use crate::frame::{self, Call};
use crate::record::{self, Record};

/// Each sort in words, and the least n at which it can come.
pub const SORTS: [(&str, usize); 10] = [
    ("granted a whole block", 0),
    ("granted a part of a block", 1),
    ("granted where the lowest label decided", 2),
    ("granted past blocks that are too small", 2),
    ("granted what buddy would not", 2),
    ("granted by a map that isn't the identity", 2),
    ("granted to a growth", 1),
    ("granted to a growth from a block with a node of its own", 1),
    ("refused 14 with blocks", 1),
    ("refused 14 with nothing free", 0),
];

/// Of which sorts a call is, given the number that was returned and the record
/// before it; of none if it isn't by best fit.
pub fn sorts(frame: &[u8], number: u32, before: &Record) -> [bool; SORTS.len()] {
    let (job, k) = match frame::read(frame) {
        Ok(Call::Request { job, k, strategy: BEST_FIT }) => (job, k.into()),
        Ok(Call::Grow { job, k, strategy: BEST_FIT }) => (job, k.into()),
        _ => return [false; SORTS.len()],
    };
    let (n, map, is_free) = (record::dimension(before), record::map(before), free_to(before, job));
    let blocks = maximal_blocks(n, &is_free);
    let mut is = [false; SORTS.len()];
    if number == 14 {
        is[8] = !blocks.is_empty();
        is[9] = blocks.is_empty();
    }
    if number == 0 {
        let answer = choose(BEST_FIT, n, k, &is_free);
        let block = block_of(answer, &blocks);
        let has_own = |label| record::holder(before, node(&map, label)) == job;
        is[0] = dimension(&block) == k;
        is[1] = !is[0];
        is[2] = blocks.iter().any(|other| other.stars == block.stars && other.low > block.low);
        is[3] = blocks.iter().any(|other| dimension(other) < k);
        is[4] = low_of(answer) != low_of(choose(BUDDY, n, k, &is_free));
        is[5] = map != IDENTITY;
        is[6] = record::held(before, job) != 0;
        is[7] = (block.low..=block.low | block.stars).any(has_own);
    }
    is
}

/// Which labels are free to a job.
fn free_to(record: &Record, job: u16) -> impl Fn(u32) -> bool {
    let (map, free) = (record::map(record), record::free_nodes(record, job));
    move |label| free[node(&map, label) as usize]
}

/// The dimensions of the maximal free blocks.
pub fn dimensions(record: &Record) -> Vec<u32> {
    let blocks = maximal_blocks(record::dimension(record), &free_to(record, 0));
    blocks.iter().map(dimension).collect()
}

fn low_of(answer: Answer) -> Option<u32> {
    match answer {
        Answer::Found { low, .. } => Some(low),
        Answer::NoneFree { .. } => None,
    }
}

/// The block whose lowest part the answer is.
fn block_of(answer: Answer, blocks: &[Subcube]) -> Subcube {
    let is_it = |block: &&Subcube| Some(block.low) == low_of(answer);
    *blocks.iter().find(is_it).expect("a grant is a block's lowest part")
}
