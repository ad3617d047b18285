//! The frame call: document 01, "Six calls and their frames" and "When a
//! call says no", and document 02, (a), (e) and (f). Each function checks its
//! causes in the table's order.

use crate::choose::{choose_with, Answer};
use crate::cube::{self, Nodes};
use crate::family::STRATEGIES;
use crate::frame::{self, Call, Reply};
use crate::record::{self, Record, FAULTY, GOOD, NODES, UNCONFIRMED};

/// Answers one frame. Gives 0, or the refusal's number; a refused call leaves
/// the record as it was, and 1 and 2 leave the reply too.
pub fn call(record: &mut [u8], frame: &[u8], reply: &mut [u8]) -> u32 {
    let Ok(record) = <&mut Record>::try_from(record) else {
        return 1;
    };
    if !record::is_valid(record) {
        return 1;
    }
    if reply.len() < 12 {
        return 2;
    }
    let answer = match frame::read(frame) {
        Ok(call) => answer(record, call),
        Err(number) => Reply::refuse(number),
    };
    answer.write(reply);
    match answer {
        Reply::Refused { number, .. } => number.into(),
        _ => 0,
    }
}

fn answer(record: &mut Record, call: Call) -> Reply {
    match call {
        Call::Good { node } => report(record, node, GOOD),
        Call::Fault { node } => report(record, node, FAULTY),
        Call::Repaired { node } => report(record, node, UNCONFIRMED),
        Call::Relabel => relabel(record),
        Call::Request { job, k, strategy } => request(record, job, k, strategy),
        Call::Release { job } => release(record, job),
        Call::Grow { job, k, strategy } => grow(record, job, k, strategy),
    }
}

/// 'good', 'fault' and 'repaired', by the condition they set.
fn report(record: &mut Record, node: u16, to: u8) -> Reply {
    let node = u32::from(node);
    if node >= 1 << record::dimension(record) {
        return Reply::refuse(8);
    }
    let was_faulty = record::condition(record, node) == FAULTY;
    if (to == GOOD && was_faulty) || (to == UNCONFIRMED && !was_faulty) {
        return Reply::refuse(12);
    }
    record::set_condition(record, node, to);
    let value = if to == FAULTY { record::holder(record, node) } else { 0 };
    Reply::Done { value }
}

/// D is taken over the nodes that aren't good: document 02, (b).
fn relabel(record: &mut Record) -> Reply {
    if record::any_holder(record, |holder| holder != 0) {
        return Reply::refuse(13);
    }
    let conditions = record::conditions(record).iter().zip(0..);
    let not_good = conditions.filter(|(c, _)| **c != GOOD).map(|(_, node)| node);
    let (map, size) = cube::relabel(record::dimension(record), not_good);
    record::set_map(record, &map);
    Reply::Done { value: size as u16 }
}

fn request(record: &mut Record, job: u16, k: u8, strategy: u8) -> Reply {
    if let Some(number) = wrong_field(record, job, k, strategy) {
        return Reply::refuse(number);
    }
    if record::any_holder(record, |holder| holder == job) {
        return Reply::refuse(10);
    }
    match chosen(record, job, k, strategy) {
        Answer::NoneFree { count } => Reply::none_free(count),
        Answer::Found { low, stars, tried } => grant(record, job, low, stars, tried),
    }
}

/// The job gets what is chosen of what is free to it, and loses its nodes
/// outside that: document 02, (e).
fn grow(record: &mut Record, job: u16, k: u8, strategy: u8) -> Reply {
    if let Some(number) = wrong_field(record, job, k, strategy) {
        return Reply::refuse(number);
    }
    let held = record::held(record, job);
    if held == 0 {
        return Reply::refuse(11);
    }
    if 1 << k <= held {
        return Reply::refuse(17);
    }
    match chosen(record, job, k, strategy) {
        Answer::NoneFree { count } => Reply::none_free(count),
        Answer::Found { low, stars, tried } => {
            record::release(record, job);
            grant(record, job, low, stars, tried)
        }
    }
}

/// Which of 6, 7 and 9 the fields of a request or a growth meet first.
fn wrong_field(record: &Record, job: u16, k: u8, strategy: u8) -> Option<u16> {
    if job == 0 {
        return Some(6);
    }
    if u32::from(k) > record::dimension(record) {
        return Some(7);
    }
    (!STRATEGIES.contains(&strategy)).then_some(9)
}

/// What the strategy chooses of what is free to the job, by label.
fn chosen(record: &Record, job: u16, k: u8, strategy: u8) -> Answer {
    let free = record::free_nodes(record, job);
    let nodes = Nodes::new(&record::map(record));
    let is_free = |label| free[nodes.node(label) as usize % NODES];
    choose_with(strategy, record::dimension(record), k.into(), is_free)
}

/// Makes the job the holder of a member, which is given by label; each of its
/// nodes gets the star bits that are replied: document 02, (f).
fn grant(record: &mut Record, job: u16, low: u32, stars: u32, tried: u32) -> Reply {
    let map = record::map(record);
    let (lowest, stars) = (cube::node(&map, low), cube::node(&map, stars));
    let mut part = 0;
    loop {
        record::set_holder(record, lowest | part, job);
        record::set_stars(record, lowest | part, stars as u16);
        part = part.wrapping_sub(stars) & stars;
        if part == 0 {
            break;
        }
    }
    Reply::Granted { job, lowest: lowest as u16, stars: stars as u16, tried: tried as u16 }
}

fn release(record: &mut Record, job: u16) -> Reply {
    if job == 0 {
        return Reply::refuse(6);
    }
    let given_back = record::release(record, job);
    if given_back == 0 {
        return Reply::refuse(11);
    }
    Reply::Done { value: given_back }
}
