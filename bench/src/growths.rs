//! Growths of every strategy and k: a pattern of free nodes, and on it what the
//! asking job holds. A growth counts the job's nodes, takes the good ones for
//! free and clears all of them, so these vary how many they are, where they
//! are, and whether the job keeps them.

use crate::patterns::{is_even, record, used, Pattern, Request};
use crate::patterns::{BLOCKS, LATE, MIXED, SILENT, SIZES, WEIGHTS};
use crate::relabels::RECORDS;
use crate::rows::{Record, Row};
use cube_proved::frame::{grow, request};
use cube_proved::STRATEGIES;
use cube_reference::record::{holder, set_condition, set_holder, set_stars, FAULTY, GOOD};
use cube_reference::rng::Rng;
use cube_reference::session::fresh;
use cube_reference::{node, relabel, Map, IDENTITY};
use Own::{Granted, Labels};

/// The job that grows.
const JOB: u16 = 7;

/// What the job holds.
#[derive(Clone, Copy)]
enum Own {
    /// What the same strategy granted it: a dimension less than it asks for
    /// now, or as many less as it took.
    Granted,
    /// A name, and the conditions of the labels that are the job's; the star
    /// bits of each are others.
    Labels(&'static str, fn(&Request, u32) -> Option<u8>),
}

/// Half as many labels as are asked for, the last.
const LAST: Own = Labels("own last", |r, x| (x >= (1 << r.n) - (1 << r.low())).then_some(GOOD));

/// As many, far apart.
const APART: Own = Labels("own apart", |r, x| (x % (1 << (r.n - r.low())) == 0).then_some(GOOD));

/// As many, the first, and one of them faulty.
const BROKEN: Own = Labels("own broken", |r, x| {
    let last = (1 << r.low()) - 1;
    (x <= last).then_some(if x == last { FAULTY } else { GOOD })
});

/// As many: what the family's last member has beside the labels with an even
/// number of one-bits.
const FILL: Own = Labels("own fill", |r, x| (r.in_last(x) && !is_even(x)).then_some(GOOD));

/// One less than is asked for.
const NEARLY: Own = Labels("own nearly all", |r, x| (x + 1 < 1 << r.k).then_some(GOOD));

/// What is free or not the job's, and what is the job's.
type Growth = (Pattern, Own);

/// The job gets a member with its nodes, one elsewhere, or none.
const PLAIN: [Growth; 12] = [
    (SILENT[0], Granted),
    (SILENT[0], LAST),
    (SILENT[0], BROKEN),
    (MIXED[3], Granted),
    (MIXED[8], Granted),
    (WEIGHTS[0], Granted),
    (WEIGHTS[4], APART),
    (BLOCKS[1], NEARLY),
    (LATE[0], NEARLY),
    (WEIGHTS[4], FILL),
    (SIZES[0], LAST),
    (SIZES[6], Granted),
];

impl Own {
    fn name(&self) -> &'static str {
        match self {
            Granted => "own granted",
            Labels(name, _) => name,
        }
    }

    /// Makes the job the holder in a record.
    fn hold(&self, record: &mut Record, asked: &Request, strategy: u8, map: &Map) {
        match self {
            Granted => {
                let mut smaller = (0..asked.k as u8).rev().map(|k| request(JOB, k, strategy));
                smaller.find(|call| cube_reference::call(record, call, &mut [0; 12]) == 0);
            }
            Labels(_, condition) => {
                for x in 0..1 << asked.n {
                    if let Some(condition) = condition(asked, x) {
                        set_holder(record, node(map, x), JOB);
                        set_stars(record, node(map, x), x as u16);
                        set_condition(record, node(map, x), condition);
                    }
                }
            }
        }
    }
}

/// What becomes of the job by the second program.
fn outcome(start: &Record, call: &[u8]) -> &'static str {
    let mut after = *start;
    match cube_reference::call(&mut after, call, &mut [0; 12]) {
        0 if (0..1024).all(|x| holder(start, x) != JOB || holder(&after, x) == JOB) => "grown",
        0 => "moved",
        14 => "refused",
        number => panic!("{call:?}: {number}"),
    }
}

/// Growths of every strategy and k, with a used cube for each strategy.
fn rows(n: u32, (pattern, own): &Growth, map: &Map, used: &[Record]) -> Vec<Row> {
    let all = (0..STRATEGIES.len()).flat_map(|s| (1..=n).map(move |k| (s, k)));
    let row = |(strategy, k): (usize, u32)| {
        let asked = Request::new(n, k, strategy, &used[strategy]);
        let mut start = record(&asked, pattern, map);
        own.hold(&mut start, &asked, strategy as u8, map);
        let call = grow(JOB, k as u8, strategy as u8);
        let relabelled = if *map == IDENTITY { "" } else { ", relabelled" };
        let outcome = format!("{}, k {k}, {}", STRATEGIES[strategy], outcome(&start, &call));
        let name = format!("{}, {}{relabelled}, {outcome}", pattern.name, own.name());
        Row { name, n, starts: vec![start], call }
    };
    all.map(row).collect()
}

/// The rows at one n under one map, each pattern with a title.
fn titled(n: u32, growths: &[Growth], map: Map) -> Vec<(String, Vec<Row>)> {
    let used: Vec<_> = (0..STRATEGIES.len()).map(|strategy| used(n, strategy)).collect();
    let relabelled = if map == IDENTITY { "" } else { ", relabelled" };
    let title = |(pattern, own): &Growth| {
        format!("growth, n {n}, {}, {}{relabelled}", pattern.name, own.name())
    };
    growths.iter().map(|growth| (title(growth), rows(n, growth, &map, &used))).collect()
}

/// Every pattern at n = 10, and some on a relabelled cube and on smaller ones.
pub fn all() -> Vec<(String, Vec<Row>)> {
    let (map, _) = relabel(10, [0, 0x2aa]);
    let some = [PLAIN[1], PLAIN[4], PLAIN[5], PLAIN[6], PLAIN[10], PLAIN[11]];
    let parts = [
        titled(10, &PLAIN, IDENTITY),
        titled(10, &[PLAIN[2], PLAIN[4], PLAIN[9], PLAIN[11]], map),
        titled(7, &some, IDENTITY),
        titled(4, &some, IDENTITY),
    ];
    parts.into_iter().flatten().collect()
}

/// A record with all nodes good, where about a fourth is the job's, the last
/// always, and if `others` is said another fourth is another job's, the first
/// always. Held nodes have any star bits.
fn draw(rng: &mut Rng, n: u32, others: bool) -> Record {
    let (mut record, last) = (fresh(n), (1 << n) - 1);
    for x in 0..=last {
        set_condition(&mut record, x, GOOD);
        let job = match rng.below(4) {
            _ if x == last => JOB,
            _ if x == 0 && others => 100,
            0 if x > 0 => JOB,
            1 if others => 100,
            _ => continue,
        };
        set_holder(&mut record, x, job);
        set_stars(&mut record, x, rng.number() as u16);
    }
    record
}

/// Growths of a job whose nodes are drawn anew for each record, so that no
/// branch on a holder is foreseen: the whole cube granted, and refused as the
/// first node is another job's; and refused because it holds enough.
pub fn drawn(n: u32) -> impl Iterator<Item = Row> {
    let rows = [
        ("growth granted, drawn, buddy", n as u8, 0, false),
        ("growth, none free, drawn, buddy", n as u8, 0, true),
        ("refused growth (17), drawn", 0, 0, true),
        ("growth granted, drawn, best fit", n as u8, 4, false),
        ("growth, none free, drawn, best fit", n as u8, 4, true),
    ];
    rows.into_iter().map(move |(name, k, strategy, others)| {
        let rng = &mut Rng::new(22);
        let starts = (0..RECORDS).map(|_| draw(rng, n, others)).collect();
        Row { name: name.to_string(), n, starts, call: grow(JOB, k, strategy) }
    })
}
