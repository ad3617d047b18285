//! Relabels under patterns of nodes that aren't good. D is taken over these,
//! silent or faulty, and what a relabel takes should not hang on where they are.

use crate::rows::{Record, Row};
use cube_proved::frame::relabel;
use cube_reference::record::{set_condition, FAULTY, GOOD, UNCONFIRMED as SILENT};
use cube_reference::rng::Rng;
use cube_reference::session::fresh;

/// The condition of a node, in a cube of dimension n.
type Condition = fn(&mut Rng, u32, u32) -> u8;

fn silent(is_silent: bool) -> u8 {
    if is_silent {
        SILENT
    } else {
        GOOD
    }
}

/// The same nodes always: D is empty, a part of the n directions or all. With
/// every other direction or node the map isn't the identity.
const FIXED: [(&str, Condition); 12] = [
    ("all silent", |_, _, _| SILENT),
    ("all faulty", |_, _, _| FAULTY),
    ("all good", |_, _, _| GOOD),
    ("first node silent", |_, _, x| silent(x == 0)),
    ("last node silent", |_, n, x| silent(x + 1 == 1 << n)),
    ("first node silent, last faulty", |_, n, x| match x {
        0 => SILENT,
        _ if x + 1 == 1 << n => FAULTY,
        _ => GOOD,
    }),
    ("two silent, every other direction", |_, n, x| silent(x == 0 || x == 0x2aa % (1 << n))),
    ("every other node silent", |_, _, x| silent(x % 2 == 0)),
    ("silent and faulty in turn", |_, _, x| [SILENT, FAULTY][x as usize % 2]),
    ("first half silent", |_, n, x| silent(x < 1 << n >> 1)),
    ("last half silent", |_, n, x| silent(x >= 1 << n >> 1)),
    ("silent, faulty, good in turn", |_, _, x| [SILENT, FAULTY, GOOD][x as usize % 3]),
];

/// Drawn anew for each record, so that no branch on a condition is foreseen.
const DRAWN: [(&str, Condition); 4] = [
    ("drawn, a tenth silent", |rng, _, _| silent(rng.one_in(10))),
    ("drawn, half silent", |rng, _, _| rng.pick(&[SILENT, GOOD])),
    ("drawn, silent, faulty or good", |rng, _, _| rng.pick(&[SILENT, FAULTY, GOOD])),
    ("drawn, even nodes alone not good", |rng, _, x| match x % 2 {
        0 => rng.pick(&[SILENT, FAULTY, GOOD]),
        _ => GOOD,
    }),
];

/// How many are drawn: more than the processor remembers.
pub const RECORDS: usize = 512;

fn record(rng: &mut Rng, n: u32, condition: Condition) -> Record {
    let mut record = fresh(n);
    (0..1 << n).for_each(|x| set_condition(&mut record, x, condition(rng, n, x)));
    record
}

fn row(n: u32, (name, condition): (&str, Condition), records: usize) -> Row {
    let rng = &mut Rng::new(22);
    let starts = (0..records).map(|_| record(rng, n, condition)).collect();
    Row { name: format!("relabel, {name}"), n, starts, call: relabel() }
}

/// A relabel under every pattern, at one n.
pub fn rows(n: u32) -> impl Iterator<Item = Row> {
    let fixed = FIXED.into_iter().map(move |pattern| row(n, pattern, 1));
    fixed.chain(DRAWN.into_iter().map(move |pattern| row(n, pattern, RECORDS)))
}
