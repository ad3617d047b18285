//! The sorts of growths that random lists of calls draw.

use crate::call::call;
use crate::cube::IDENTITY;
use crate::frame::{self, Call};
use crate::record::{self, Record, GOOD};

/// Each sort in words, and the least n at which it can come.
pub const SORTS: [(&str, usize); 10] = [
    ("granted, all nodes kept", 1),
    ("granted, some nodes lost", 3),
    ("granted, all nodes lost", 2),
    ("granted by a map that isn't the identity", 2),
    ("granted elsewhere since a node of its own isn't good", 2),
    ("refused 14", 1),
    ("refused 14 since a node of its own isn't good", 1),
    ("refused 17", 0),
    ("refused 17 with fewer good nodes than asked for", 0),
    ("refused 11", 0),
];

/// Of which sorts a call is, given the number that was returned and the record
/// before and after it; of none if it is no growth.
pub fn sorts(frame: &[u8], number: u32, before: &Record, after: &Record) -> [bool; SORTS.len()] {
    let Ok(Call::Grow { job, k, .. }) = frame::read(frame) else {
        return [false; SORTS.len()];
    };
    let holds = |record: &Record, node: u32| record::holder(record, node) == job;
    let nodes = 0..1 << record::dimension(before);
    let own: Vec<u32> = nodes.clone().filter(|node| holds(before, *node)).collect();
    let kept = own.iter().filter(|node| holds(after, **node)).count();
    let good = own.iter().filter(|node| record::condition(before, **node) == GOOD).count();
    let granted = number == 0;
    // What it would have come to with all its own nodes good.
    let mut mended = *before;
    own.iter().for_each(|node| record::set_condition(&mut mended, *node, GOOD));
    let then = call(&mut mended, frame, &mut [0; 12]);
    let elsewhere = nodes.clone().any(|node| holds(&mended, node) != holds(after, node));
    [
        granted && kept == own.len(),
        granted && kept != 0 && kept != own.len(),
        granted && kept == 0,
        granted && record::map(before) != IDENTITY,
        granted && elsewhere,
        number == 14,
        number == 14 && then == 0,
        number == 17,
        number == 17 && good < 1 << k,
        number == 11,
    ]
}
