//! Changes of a record that loads and holds something, each with the number that
//! the loading call gives then.

use cube_reference::record::{dimension, holder, set_condition, set_holder, set_stars, stars};
use cube_reference::record::{Record, HOLDERS, NODES, SIZE};
use cube_reference::rng::Rng;

use crate::input::bytes;
use crate::subcubes::{give, jobs, unused, Job};
use crate::wholes;

/// A change; it leaves nothing if it can't be made to this record.
type Make = fn(&mut Rng, Record) -> Option<Vec<u8>>;

/// Name, least n at which it can be made, the number then, and the change.
pub const CHANGES: [(&str, usize, u32, Make); 23] = [
    ("nothing changed", 0, 0, |_, record| left(record)),
    ("a job renamed", 0, 0, renamed),
    ("a job gone", 0, 0, gone),
    ("the whole cube one job's", 0, 0, |rng, record| left(wholes::of_one(rng, record))),
    ("each node another job's", 0, 0, |rng, record| left(wholes::of_each(rng, record))),
    ("pairs", 1, 0, |rng, record| left(wholes::of_pairs(rng, record))),
    ("a node lost", 1, 18, lost),
    ("a node lost to another job", 1, 18, lost_to_another),
    ("a node too many", 1, 18, too_many),
    ("two subcubes of one job", 1, 18, joined),
    ("nodes of two holders exchanged", 2, 18, exchanged),
    ("star bits of one node", 0, 18, star_bits_of_one),
    ("star bits of one job's one node", 0, 18, star_bits_alone),
    ("star bits of a job", 1, 18, |rng, record| starred(rng, record, |n, _| (1 << n) - 1)),
    ("a star in the lowest node", 1, 18, |rng, record| starred(rng, record, |_, low| low)),
    ("a star beyond the cube", 0, 18, |rng, record| starred(rng, record, |n, _| !0 << n)),
    ("one job's whole cube, last star bits others", 0, 18, |rng, record| {
        left(wholes::of_one_but_last(rng, record))
    }),
    ("each node another job's but two", 1, 18, |rng, record| {
        left(wholes::of_each_but_one(rng, record))
    }),
    ("star bits at a node lost", 1, 1, lost_in_part),
    ("a wrong condition and a torn subcube", 0, 1, wrong_condition),
    ("a holder beyond the cube, at n 10 the zero byte", 0, 1, beyond),
    ("another size", 0, 1, sized),
    ("any bytes", 0, 1, |rng, _| Some(bytes(rng, SIZE))),
];

fn left(record: Record) -> Option<Vec<u8>> {
    Some(record.to_vec())
}

/// A job that has at least so many nodes.
fn job(rng: &mut Rng, record: &Record, least: usize) -> Option<Job> {
    let jobs: Vec<Job> = jobs(record).into_iter().filter(|job| job.len() >= least).collect();
    (!jobs.is_empty()).then(|| jobs[rng.below(jobs.len() as u32) as usize].clone())
}

fn nodes(job: &Job) -> Vec<u32> {
    job.iter().map(|(_, node)| (*node).into()).collect()
}

/// One of a job's nodes, often the first or the last.
fn node(rng: &mut Rng, job: &Job) -> u32 {
    end_or_any(rng, &nodes(job))
}

fn end_or_any(rng: &mut Rng, nodes: &[u32]) -> u32 {
    let any = rng.pick(nodes);
    rng.pick(&[nodes[0], any, nodes[nodes.len() - 1]])
}

/// A node that isn't a job's, often the first or the last such.
fn other_node(rng: &mut Rng, record: &Record, job: &Job) -> Option<u32> {
    let is_other = |node: &u32| holder(record, *node) != job[0].0;
    let others: Vec<u32> = (0..1 << dimension(record)).filter(is_other).collect();
    (!others.is_empty()).then(|| end_or_any(rng, &others))
}

fn renamed(rng: &mut Rng, mut record: Record) -> Option<Vec<u8>> {
    let (job, name) = (job(rng, &record, 1)?, unused(rng, &record));
    nodes(&job).into_iter().for_each(|node| set_holder(&mut record, node, name));
    left(record)
}

fn gone(rng: &mut Rng, mut record: Record) -> Option<Vec<u8>> {
    let job = job(rng, &record, 1)?;
    give(&mut record, &nodes(&job), 0, 0);
    left(record)
}

fn lost(rng: &mut Rng, mut record: Record) -> Option<Vec<u8>> {
    let job = job(rng, &record, 2)?;
    give(&mut record, &[node(rng, &job)], 0, 0);
    left(record)
}

/// A job that holds nothing else gets the node, with or without its star bits.
fn lost_to_another(rng: &mut Rng, mut record: Record) -> Option<Vec<u8>> {
    let (job, other) = (job(rng, &record, 2)?, unused(rng, &record));
    let node = node(rng, &job);
    let kept = [0, stars(&record, node)];
    give(&mut record, &[node], other, rng.pick(&kept));
    left(record)
}

/// An unheld node or another job's gets a job's holder and star bits.
fn too_many(rng: &mut Rng, mut record: Record) -> Option<Vec<u8>> {
    let job = job(rng, &record, 1)?;
    let (node, own) = (other_node(rng, &record, &job)?, stars(&record, job[0].1.into()));
    give(&mut record, &[node], job[0].0, own);
    left(record)
}

/// A job gets all nodes of another, which keep their star bits.
fn joined(rng: &mut Rng, mut record: Record) -> Option<Vec<u8>> {
    let job = job(rng, &record, 1)?;
    let others: Vec<Job> = jobs(&record).into_iter().filter(|other| *other != job).collect();
    let other = others.get(rng.below(others.len().max(1) as u32) as usize)?;
    nodes(other).into_iter().for_each(|node| set_holder(&mut record, node, job[0].0));
    left(record)
}

/// A node of a job that has more and one that isn't the job's.
fn exchanged(rng: &mut Rng, mut record: Record) -> Option<Vec<u8>> {
    let job = job(rng, &record, 2)?;
    let pair = [node(rng, &job), other_node(rng, &record, &job)?];
    let [ours, theirs] = pair.map(|node| (holder(&record, node), stars(&record, node)));
    give(&mut record, &pair[..1], theirs.0, theirs.1);
    give(&mut record, &pair[1..], ours.0, ours.1);
    left(record)
}

fn star_bits_of_one(rng: &mut Rng, mut record: Record) -> Option<Vec<u8>> {
    let job = job(rng, &record, 1)?;
    let node = node(rng, &job);
    let other = stars(&record, node) ^ 1 << rng.below(16);
    set_stars(&mut record, node, other);
    left(record)
}

/// The first node, the last or any becomes a job's that has no other; whoever had
/// it is gone.
fn star_bits_alone(rng: &mut Rng, mut record: Record) -> Option<Vec<u8>> {
    let all: Vec<u32> = (0..1 << dimension(&record)).collect();
    let node = end_or_any(rng, &all);
    let before = jobs(&record).into_iter().find(|job| job[0].0 == holder(&record, node));
    give(&mut record, &before.map_or(vec![], |job| nodes(&job)), 0, 0);
    let job = unused(rng, &record);
    give(&mut record, &[node], job, 1 << rng.below(16));
    left(record)
}

/// Star bits of all nodes of a job changed within those that n and the lowest
/// node give.
fn starred(rng: &mut Rng, mut record: Record, within: fn(u32, u16) -> u16) -> Option<Vec<u8>> {
    let (job, n) = (job(rng, &record, 1)?, dimension(&record));
    let within = within(n, job[0].1);
    let bits: Vec<u16> = (0..16).map(|bit| 1 << bit).filter(|bit| within & bit != 0).collect();
    let changed = rng.pick(bits.first().map(|_| &bits[..])?) | rng.number() as u16 & within;
    let other = stars(&record, job[0].1.into()) ^ changed;
    give(&mut record, &nodes(&job), job[0].0, other);
    left(record)
}

/// A node that a job loses, but for its star bits.
fn lost_in_part(rng: &mut Rng, mut record: Record) -> Option<Vec<u8>> {
    let job = job(rng, &record, 2)?;
    set_holder(&mut record, node(rng, &job), 0);
    left(record)
}

fn wrong_condition(rng: &mut Rng, record: Record) -> Option<Vec<u8>> {
    let mut record: Record = star_bits_of_one(rng, record)?.try_into().ok()?;
    let node = rng.below(1 << dimension(&record));
    set_condition(&mut record, node, rng.pick(&[3, 128, 255]));
    left(record)
}

fn beyond(rng: &mut Rng, mut record: Record) -> Option<Vec<u8>> {
    let (first, all) = (1 << dimension(&record), NODES as u32);
    if first == all {
        record[HOLDERS - 1] = 1;
    } else {
        set_holder(&mut record, first + rng.below(all - first), 1);
    }
    left(record)
}

fn sized(rng: &mut Rng, record: Record) -> Option<Vec<u8>> {
    let more = 1 + rng.below(4) as usize;
    match rng.below(2) {
        0 => Some(record[..rng.below(SIZE as u32) as usize].to_vec()),
        _ => Some([&record[..], &bytes(rng, more)].concat()),
    }
}
