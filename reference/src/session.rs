//! The calls, the damaged records and the sum that `value-table` prints, as
//! crates/value_table defines them.

use std::iter::successors;

use crate::frame::{Call, Reply};
use crate::noise::frame;
use crate::record::{self, Record, SIZE};
use crate::{call, setup};

/// How many calls of a session are drawn.
const DRAWN: u32 = 40;

/// A session of dimension n draws from the number n + FIRST on. From here the
/// sessions together meet every sort of call; from most numbers they don't.
const FIRST: u32 = 261;

/// The record that a session starts at: each node but 2^n / 2 has been
/// reported good, and that one stays silent.
pub fn start(n: u32) -> Record {
    let (mut record, silent) = (fresh(n), (1 << n) / 2);
    for node in (0..1 << n).filter(|node| *node != silent) {
        assert_eq!(make(&mut record, Call::Good { node }).number, 0);
    }
    record
}

/// The calls of a session after its start: the drawn ones, then those that
/// end it.
pub fn calls(n: u32) -> Vec<Call> {
    let numbers = successors(Some(next(n + FIRST)), |drawn| Some(next(*drawn)));
    let drawn = (0..DRAWN).zip(numbers).map(|(place, drawn)| call_of(n, place, drawn));
    drawn.chain(last(n)).collect()
}

/// Numbers drawn one after another.
fn next(drawn: u32) -> u32 {
    (drawn * 17364 + 1) % 65521
}

/// The call at a place, from 0, of a session of dimension n: two faults, a
/// relabel, then the kind that the number gives. Nodes are eighths of the cube
/// and 2^n, jobs 0 to 3 and 65535, k up to n + 1, strategies up to 5.
fn call_of(n: u32, place: u32, drawn: u32) -> Call {
    let node = (drawn % 9 * (1 << n) / 8) as u16;
    let job = [0, 1, 2, 3, 65535][(drawn / 5 % 5) as usize];
    let (k, strategy) = ((drawn / 11 % (n + 2)) as u8, (drawn / 13 % 6) as u8);
    let kind = match place {
        0 | 1 => 1,
        2 => 6,
        _ => drawn / 17 % 22,
    };
    match kind {
        0 => Call::Good { node },
        1..=3 => Call::Fault { node },
        4..=5 => Call::Repaired { node },
        6..=7 => Call::Relabel,
        8..=12 => Call::Request { job, k, strategy },
        13..=15 => Call::Release { job },
        _ => Call::Grow { job, k, strategy },
    }
}

/// The end of a session: jobs 1 and 2 ask for a node each, then they grow by
/// turns, to each k up to n; half way node 1 fails. The strategies go round.
fn last(n: u32) -> impl Iterator<Item = Call> {
    let strategy = move |k| ((n + k / 2) % 5) as u8;
    let requests = [1, 2].map(|job| Call::Request { job, k: 0, strategy: strategy(0) });
    let growth = move |k| Call::Grow { job: 1 + k as u16 % 2, k: k as u8, strategy: strategy(k) };
    let (early, late) = ((0..n / 2).map(growth), (n / 2..=n).map(growth));
    requests.into_iter().chain(early).chain([Call::Fault { node: 1 }]).chain(late)
}

/// One call of each kind.
pub const EACH: [Call; 7] = [
    Call::Good { node: 0 },
    Call::Fault { node: 0 },
    Call::Repaired { node: 0 },
    Call::Relabel,
    Call::Request { job: 1, k: 0, strategy: 0 },
    Call::Grow { job: 65535, k: 1, strategy: 0 },
    Call::Release { job: 65535 },
];

/// How many damages there are; the first so many leave the record right.
pub const DAMAGES: u32 = 13;
pub const RIGHT: u32 = 2;

/// A fresh record of dimension 3 with one thing changed, or two of one node.
pub fn damaged(damage: u32) -> Record {
    let mut record = fresh(3);
    let mut map = record::map(&record);
    match damage {
        0 => record::set_holder(&mut record, 7, 65535),
        1 => {
            record::set_holder(&mut record, 7, 65535);
            record::set_stars(&mut record, 7, 65535);
        }
        2 => record[4] = 11,
        3 => record::set_condition(&mut record, 0, 3),
        4 => record::set_holder(&mut record, 8, 5),
        5 => record::set_condition(&mut record, 1023, 1),
        6 => map[0] = 2,
        7 => map[2] = 4,
        8 => map[9] = 9,
        9 => record::set_stars(&mut record, 0, 1),
        10 => record::set_stars(&mut record, 7, 256),
        11 => record::set_stars(&mut record, 8, 1),
        _ => record::set_stars(&mut record, 1023, 256),
    }
    record::set_map(&mut record, &map);
    record
}

/// What set-up makes of any buffer.
pub fn fresh(n: u32) -> Record {
    let mut record = [0; SIZE];
    assert_eq!(setup(&mut record, n), 0);
    record
}

/// What a call gives: the number returned, and the reply's six words, which
/// held 61166 each before the call.
pub struct Given {
    pub number: u32,
    pub words: [u16; 6],
    pub reply: Reply,
}

pub fn make(record: &mut Record, made: Call) -> Given {
    let mut bytes = [238; 12];
    let number = call(record, &frame_of(made), &mut bytes);
    let words = [0, 2, 4, 6, 8, 10].map(|at| u16::from_le_bytes([bytes[at], bytes[at + 1]]));
    let reply = Reply::read(&bytes).unwrap_or(Reply::refuse(number as u16));
    Given { number, words, reply }
}

pub fn frame_of(call: Call) -> Vec<u8> {
    match call {
        Call::Good { node } => frame(0x0101, &node.to_le_bytes()),
        Call::Fault { node } => frame(0x0102, &node.to_le_bytes()),
        Call::Repaired { node } => frame(0x0103, &node.to_le_bytes()),
        Call::Relabel => frame(0x0203, &[]),
        Call::Request { job, k, strategy } => {
            let [low, high] = job.to_le_bytes();
            frame(0x0201, &[low, high, k, strategy])
        }
        Call::Release { job } => frame(0x0202, &job.to_le_bytes()),
        Call::Grow { job, k, strategy } => {
            let [low, high] = job.to_le_bytes();
            frame(0x0204, &[low, high, k, strategy])
        }
    }
}

/// The sum of a record's bytes from n on: n, the map, the zero byte, holders,
/// conditions and star bits. Each byte is added to 31 times the remainder by
/// 65521.
pub fn sum(record: &Record) -> u32 {
    record[4..].iter().fold(0, |sum, byte| sum % 65521 * 31 + u32::from(*byte))
}
