//! Requests on cubes whose free nodes are drawn anew for each record, so that no
//! branch on a node is foreseen.

use crate::relabels::RECORDS;
use crate::rows::{Record, Row};
use cube_proved::frame::request;
use cube_proved::STRATEGIES;
use cube_reference::record::{set_condition, set_holder, FAULTY, GOOD};
use cube_reference::rng::Rng;
use cube_reference::session::fresh;

/// How nodes are drawn: one in so many is not free, half of these faulty and
/// half held; the nodes of a block of 2^low are alike.
const DRAWN: [(&str, u32, u32); 4] = [
    ("drawn, one in 2", 2, 0),
    ("drawn, one in 10", 10, 0),
    ("drawn, one in 100", 100, 0),
    ("drawn, one in 2, by fours", 2, 2),
];

fn record(rng: &mut Rng, n: u32, odds: u32, low: u32) -> Record {
    let mut record = fresh(n);
    for first in (0..1 << n).step_by(1 << low) {
        let other = rng.one_in(odds).then(|| rng.one_in(2));
        for x in first..first + (1 << low) {
            set_condition(&mut record, x, if other == Some(true) { FAULTY } else { GOOD });
            set_holder(&mut record, x, if other == Some(false) { 100 } else { 0 });
        }
    }
    record
}

/// Requests of every strategy for one node, for two and for four, at one n.
pub fn rows(n: u32) -> impl Iterator<Item = Row> {
    DRAWN.into_iter().flat_map(move |(drawn, odds, low)| {
        let rng = &mut Rng::new(22);
        let starts: Vec<Record> = (0..RECORDS).map(|_| record(rng, n, odds, low)).collect();
        let all = (0..).zip(STRATEGIES).flat_map(|(s, name)| (0..3).map(move |k| (s, name, k)));
        let row = |(strategy, name, k)| {
            let name = format!("request, {drawn}, {name}, k {k}");
            Row { name, n, starts: starts.clone(), call: request(7, k, strategy) }
        };
        all.map(row).collect::<Vec<_>>()
    })
}
