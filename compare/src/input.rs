//! What is fed: frames, reply buffers and records, right and wrong.

use cube_reference::health::Area;
use cube_reference::record::{dimension, set_condition, set_holder, set_map, set_stars, Record};
use cube_reference::record::{GOOD, HOLDERS, NODES, SIZE, STARS};
use cube_reference::rng::Rng;
use cube_reference::session::fresh;
use cube_reference::{Map, IDENTITY};

pub fn bytes(rng: &mut Rng, count: usize) -> Vec<u8> {
    (0..count).map(|_| rng.number() as u8).collect()
}

/// A frame of the list as it is, or cut, lengthened or noise.
pub fn bent(rng: &mut Rng, frame: &[u8]) -> Vec<u8> {
    match rng.below(80) {
        0 => frame[..rng.below(frame.len() as u32 + 1) as usize].to_vec(),
        1 => [frame, &bytes(rng, 3)].concat(),
        2 => {
            let length = rng.below(21) as usize;
            bytes(rng, length)
        }
        3 => sized(rng),
        4 if rng.one_in(8) => {
            let length = rng.pick(&[255, 256, 4096, 65535, 65536, 70000]);
            let mut long = bytes(rng, length);
            long[..2].copy_from_slice(&(length as u16).to_le_bytes());
            long
        }
        5 => {
            let mut changed = frame.to_vec();
            let at = rng.below(changed.len() as u32) as usize;
            changed[at] ^= 1 << rng.below(8);
            changed
        }
        _ => frame.to_vec(),
    }
}

/// A known kind and any size from 4 to 20 with a right length field.
fn sized(rng: &mut Rng) -> Vec<u8> {
    let kind: u16 = rng.pick(&[0x0101, 0x0102, 0x0103, 0x0201, 0x0202, 0x0203, 0x0204]);
    let length = 4 + rng.below(17) as u16;
    let fields = bytes(rng, usize::from(length) - 4);
    [&length.to_le_bytes(), &kind.to_le_bytes(), &fields[..]].concat()
}

/// Mostly 12 bytes; also every length below, and longer ones, whose tails
/// must stay.
pub fn reply(rng: &mut Rng) -> Vec<u8> {
    let length = match rng.below(32) {
        0 => rng.below(12),
        1..7 => 12 + rng.below(30),
        7 if rng.one_in(8) => 4096,
        _ => 12,
    };
    bytes(rng, length as usize)
}

/// Once in how many times a node has any condition, in a small subcube and
/// outside it; otherwise it is good. 0 is never.
const ANY: [(u32, u32); 11] =
    [(1, 0), (1, 0), (1, 0), (1, 0), (2, 0), (2, 0), (2, 0), (2, 0), (1, 1), (2, 2), (8, 8)];

/// A record as "Node and record" says, which perhaps no list of calls leaves:
/// any map, any holders or none below 2^n, any star bits where one is, and any
/// conditions there or in a small subcube alone, the other nodes being good.
pub fn valid_record(rng: &mut Rng, n: u32) -> Record {
    let mut record = fresh(n);
    set_map(&mut record, &any_map(rng, n));
    let jobs = 1 + rng.below(6);
    let busy = rng.pick(&[0, 0, 0, 1, 2, 4, 16, 1000]);
    let (area, any) = (Area::any(rng, n), rng.pick(&ANY));
    for node in 0..1 << n {
        let is_any = area.hits(rng, node, any);
        set_condition(&mut record, node, if is_any { rng.below(3) as u8 } else { GOOD });
        if busy != 0 && rng.one_in(busy) {
            hold(rng, &mut record, node, jobs);
        }
    }
    record
}

/// Any permutation of the first n directions.
pub fn any_map(rng: &mut Rng, n: u32) -> Map {
    let mut map = IDENTITY;
    for i in (1..n as usize).rev() {
        map.swap(i, rng.below(i as u32 + 1) as usize);
    }
    map
}

/// Makes a job, perhaps none, the holder of a node. A held one gets any star
/// bits.
fn hold(rng: &mut Rng, record: &mut Record, node: u32, jobs: u32) {
    let job = match rng.below(8) {
        0 => 65535,
        _ => rng.below(jobs + 1) as u16,
    };
    set_holder(record, node, job);
    if job != 0 {
        let any = [0, 1 << rng.below(16), rng.number() as u16];
        set_stars(record, node, rng.pick(&any));
    }
}

/// Another size, a byte changed in the head or anywhere, star bits where there
/// is no holder, or what a record was without star bits.
pub fn damaged(rng: &mut Rng, mut record: Record) -> Vec<u8> {
    match rng.below(12) {
        0 => record[..rng.below(SIZE as u32) as usize].to_vec(),
        1 => {
            let more = 1 + rng.below(4) as usize;
            [&record[..], &bytes(rng, more)].concat()
        }
        2..5 => {
            let at = rng.below(HOLDERS as u32) as usize;
            record[at] = rng.number() as u8;
            record.to_vec()
        }
        5..8 => starred(rng, record).to_vec(),
        8 => without_stars(rng, &record),
        _ => {
            let at = rng.below(SIZE as u32) as usize;
            record[at] = rng.pick(&[1, 2, 3, 255]);
            record.to_vec()
        }
    }
}

/// A star bit at a node, below 2^n or beyond, that has no holder then.
fn starred(rng: &mut Rng, mut record: Record) -> Record {
    let (nodes, all) = (1 << dimension(&record), NODES as u32);
    let (first, end) = if nodes < all && rng.one_in(2) { (nodes, all) } else { (0, nodes) };
    let any = first + rng.below(end - first);
    let node = rng.pick(&[first, any, end - 1]);
    set_holder(&mut record, node, 0);
    set_stars(&mut record, node, 1 << rng.below(16));
    record
}

/// Kind 0x0001, or the bytes before the star bits, or both with their length.
fn without_stars(rng: &mut Rng, record: &Record) -> Vec<u8> {
    let old = [&(STARS as u16).to_le_bytes()[..], &[1, 0], &record[4..STARS]].concat();
    match rng.below(3) {
        0 => [&record[..2], &[1, 0], &record[4..]].concat(),
        1 => record[..STARS].to_vec(),
        _ => old,
    }
}
