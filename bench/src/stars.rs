//! Calls by the holders and star bits of a record. Every call looks for star
//! bits at the nodes that have no holder, and a release clears those of its
//! job; what that takes should not hang on which nodes are held.

use crate::relabels::RECORDS;
use crate::rows::{Record, Row};
use cube_proved::frame::{good, release};
use cube_reference::record::{set_condition, set_holder, set_stars, GOOD};
use cube_reference::rng::Rng;
use cube_reference::session::fresh;

/// The job that releases.
const JOB: u16 = 7;

/// The holder of a node, 0 for none.
type Holder = fn(&mut Rng, u32) -> u16;

/// Who holds the nodes, and on how many records: those that are drawn differ,
/// so that no branch on a holder is foreseen. The first node is always the
/// job's, and the last is unheld.
const HELD: [(&str, Holder, usize); 4] = [
    ("the first held", |_, _| 0, 1),
    ("all but the last held", |_, _| JOB, 1),
    ("every other held", |_, x| if x % 2 == 0 { JOB } else { 0 }, 1),
    ("drawn, the job's, another's or unheld", |rng, _| rng.pick(&[JOB, 100, 0]), RECORDS),
];

/// A record with all nodes good. Held ones have any star bits.
fn record(rng: &mut Rng, n: u32, job: Holder) -> Record {
    let mut record = fresh(n);
    for x in 0..1 << n {
        set_condition(&mut record, x, GOOD);
        let job = match x {
            0 => JOB,
            _ if x + 1 == 1 << n => 0,
            _ => job(rng, x),
        };
        if job != 0 {
            set_holder(&mut record, x, job);
            set_stars(&mut record, x, rng.number() as u16);
        }
    }
    record
}

/// The record with star bits at its last node, which is unheld.
fn starred(n: u32, mut record: Record) -> Record {
    set_stars(&mut record, (1 << n) - 1, 1);
    record
}

/// A report, a release and a record that is refused, under each pattern, at
/// one n.
pub fn rows(n: u32) -> impl Iterator<Item = Row> {
    HELD.into_iter().flat_map(move |(name, job, records)| {
        let rng = &mut Rng::new(22);
        let starts: Vec<Record> = (0..records).map(|_| record(rng, n, job)).collect();
        let wrong = starts.iter().map(|record| starred(n, *record)).collect();
        let row = |(what, starts, call)| Row { name: format!("{what}, {name}"), n, starts, call };
        let report = ("report good", starts.clone(), good(0));
        [report, ("release", starts, release(JOB)), ("refused record (1)", wrong, good(0))].map(row)
    })
}
