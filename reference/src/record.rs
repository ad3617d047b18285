//! The record of 5136 bytes: document 01, "Node and record", and the star bits
//! of document 02, (f).

use crate::cube::{Map, IDENTITY, MAX_N};

pub const SIZE: usize = 5136;
pub const KIND: u16 = 0x0002;
pub const NODES: usize = 1024;

pub const UNCONFIRMED: u8 = 0;
pub const GOOD: u8 = 1;
pub const FAULTY: u8 = 2;

/// A record's bytes, its size being right.
pub type Record = [u8; SIZE];

const N: usize = 4;
const MAP: usize = 5;
const ZERO: usize = 15;
pub const HOLDERS: usize = 16;
pub const CONDITIONS: usize = HOLDERS + 2 * NODES;
pub const STARS: usize = CONDITIONS + NODES;

/// Set-up: a fresh cube of dimension n. Gives 1 for a buffer of another size,
/// then 7 for n above 10, and writes nothing then.
pub fn setup(record: &mut [u8], n: u32) -> u32 {
    let Ok(record) = <&mut Record>::try_from(record) else {
        return 1;
    };
    if n > MAX_N {
        return 7;
    }
    record.fill(0);
    record[..2].copy_from_slice(&(SIZE as u16).to_le_bytes());
    record[2..4].copy_from_slice(&KIND.to_le_bytes());
    record[N] = n as u8;
    set_map(record, &IDENTITY);
    0
}

/// Whether a record is as "Node and record" says; refusal 1 if not.
pub fn is_valid(record: &Record) -> bool {
    let head = u16::from_le_bytes([record[0], record[1]]) == SIZE as u16
        && u16::from_le_bytes([record[2], record[3]]) == KIND
        && u32::from(record[N]) <= MAX_N
        && record[ZERO] == 0;
    if !head {
        return false;
    }
    let nodes = 1 << dimension(record);
    let highest = record[CONDITIONS..][..nodes].iter().fold(0, |m, c| m.max(*c));
    is_map(&map(record), record[N] as usize)
        && highest <= FAULTY
        && all_zero(&record[HOLDERS + 2 * nodes..CONDITIONS])
        && all_zero(&record[CONDITIONS + nodes..STARS])
        && all_zero(&record[STARS + 2 * nodes..])
        && unheld_have_none(holders(record), &record[STARS..])
}

/// Whether each node that has no holder has star bits 0, by the bytes of both.
fn unheld_have_none(holders: &[u8], stars: &[u8]) -> bool {
    let word = |bytes: &[u8]| u16::from_le_bytes([bytes[0], bytes[1]]);
    let [holders, stars] = [holders, stars].map(|bytes| bytes.chunks_exact(2).map(word));
    let of_unheld = holders.zip(stars).map(|(job, stars)| if job == 0 { stars } else { 0 });
    of_unheld.fold(0, |any, stars| any | stars) == 0
}

/// Whether the first n entries permute 1 to n and each other is its own.
fn is_map(map: &Map, n: usize) -> bool {
    let (first, rest) = map.split_at(n);
    let mut seen = 0u32;
    for &new in first {
        if new == 0 || usize::from(new) > n {
            return false;
        }
        seen |= 1 << new;
    }
    seen.count_ones() as usize == n && rest == &IDENTITY[n..]
}

fn all_zero(bytes: &[u8]) -> bool {
    bytes.iter().fold(0, |any, byte| any | byte) == 0
}

pub fn dimension(record: &Record) -> u32 {
    record[N].into()
}

pub fn map(record: &Record) -> Map {
    let mut map = IDENTITY;
    map.copy_from_slice(&record[MAP..ZERO]);
    map
}

pub fn set_map(record: &mut Record, map: &Map) {
    record[MAP..ZERO].copy_from_slice(map);
}

pub fn condition(record: &Record, node: u32) -> u8 {
    record[CONDITIONS + node as usize]
}

pub fn set_condition(record: &mut Record, node: u32, condition: u8) {
    record[CONDITIONS + node as usize] = condition;
}

pub fn holder(record: &Record, node: u32) -> u16 {
    let at = HOLDERS + 2 * node as usize;
    u16::from_le_bytes([record[at], record[at + 1]])
}

pub fn set_holder(record: &mut Record, node: u32, job: u16) {
    let at = HOLDERS + 2 * node as usize;
    record[at..at + 2].copy_from_slice(&job.to_le_bytes());
}

/// The star bits of the grant that holds a node, 0 if it is unheld.
pub fn stars(record: &Record, node: u32) -> u16 {
    let at = STARS + 2 * node as usize;
    u16::from_le_bytes([record[at], record[at + 1]])
}

pub fn set_stars(record: &mut Record, node: u32, stars: u16) {
    let at = STARS + 2 * node as usize;
    record[at..at + 2].copy_from_slice(&stars.to_le_bytes());
}

/// The holders' bytes of the nodes below 2^n, in node order.
fn holders(record: &Record) -> &[u8] {
    &record[HOLDERS..][..2 << dimension(record)]
}

/// The conditions of the nodes below 2^n, in node order.
pub fn conditions(record: &Record) -> &[u8] {
    &record[CONDITIONS..][..1 << dimension(record)]
}

/// Whether the holder of any node is such.
pub fn any_holder(record: &Record, is_such: impl Fn(u16) -> bool) -> bool {
    let holders = holders(record).chunks_exact(2);
    holders.fold(false, |any, bytes| any | is_such(u16::from_le_bytes([bytes[0], bytes[1]])))
}

/// The jobs that hold nodes, ascending.
pub fn jobs(record: &Record) -> Vec<u16> {
    let holders = holders(record).chunks_exact(2);
    let mut jobs: Vec<u16> =
        holders.map(|bytes| u16::from_le_bytes([bytes[0], bytes[1]])).collect();
    jobs.sort_unstable();
    jobs.dedup();
    jobs.retain(|job| *job != 0);
    jobs
}

/// The nodes that are held, each behind its job, by job and then by node.
pub fn held_nodes(record: &Record) -> Vec<(u16, u16)> {
    let holders = holders(record).chunks_exact(2);
    let jobs = holders.map(|bytes| u16::from_le_bytes([bytes[0], bytes[1]]));
    let mut held: Vec<(u16, u16)> = jobs.zip(0..).filter(|(job, _)| *job != 0).collect();
    held.sort_by_key(|(job, _)| *job); // a job's nodes stay ascending
    held
}

/// How many nodes a job holds, good or not.
pub fn held(record: &Record, job: u16) -> u16 {
    let holders = holders(record).chunks_exact(2);
    holders.fold(0, |held, bytes| held + u16::from(u16::from_le_bytes([bytes[0], bytes[1]]) == job))
}

/// Whether a node is free to the job that asks: it is good, and unheld or the
/// job's own.
fn is_free(job: u16, condition: u8, holder: u16) -> bool {
    condition == GOOD && (holder == 0 || holder == job)
}

/// Which nodes are free to the job that asks.
pub fn free_nodes(record: &Record, job: u16) -> [bool; NODES] {
    let mut free = [false; NODES];
    let nodes = conditions(record).iter().zip(holders(record).chunks_exact(2));
    for (free, (condition, holder)) in free.iter_mut().zip(nodes) {
        *free = is_free(job, *condition, u16::from_le_bytes([holder[0], holder[1]]));
    }
    free
}

/// Makes the nodes that a job holds unheld, their star bits 0, and gives their
/// number.
pub fn release(record: &mut Record, job: u16) -> u16 {
    let size = 2 << dimension(record);
    let (before, stars) = record.split_at_mut(STARS);
    let holders = before[HOLDERS..][..size].chunks_exact_mut(2);
    let mut given_back = 0;
    for (holder, stars) in holders.zip(stars[..size].chunks_exact_mut(2)) {
        if u16::from_le_bytes([holder[0], holder[1]]) == job {
            holder.fill(0);
            stars.fill(0);
            given_back += 1;
        }
    }
    given_back
}
