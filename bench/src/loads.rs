//! The loading call by what is held. It groups the nodes by job and asks of each
//! group whether it is a subcube, so these vary how many jobs there are and how
//! they are numbered, how large and how far apart their subcubes are, and where
//! the fault is.
//!
//! There is no limit beside it: a word of flags tells one job's nodes from the
//! others', and there may be as many jobs as nodes.

use crate::held::*;
use crate::patterns::used;
use crate::rows::{Record, Row};
use cube_reference::load;
use cube_reference::record::{set_condition, CONDITIONS, SIZE};
use cube_reference::rng::Rng;

/// A name, and the record of dimension n; none where n is too small.
type Pattern = (&'static str, fn(&mut Rng, u32) -> Option<Record>);

/// How many records are drawn, so that no branch is foreseen.
const RECORDS: usize = 128;

/// They load, and are the same always: mostly equal subcubes, the jobs ascending
/// by node; and what a session leaves.
const EQUAL: [Pattern; 19] = [
    ("nothing held", |_, n| Some(nothing(n))),
    ("first node held", |_, n| Some(one(n, 0))),
    ("last node held", |_, n| Some(one(n, last(n)))),
    ("whole cube of one job", |_, n| Some(cubes(n, n, 0))),
    ("halves", |_, n| Some(cubes(n, n.checked_sub(1)?, 0))),
    ("halves, lowest star apart", |_, n| Some(cubes(n, n.checked_sub(1)?, 1))),
    ("half the dimension", |_, n| Some(cubes(n, n / 2, 0))),
    ("half the dimension, far apart", |_, n| Some(cubes(n, n / 2, n - n / 2))),
    ("pairs", |_, n| Some(cubes(n, 1, 0))),
    ("pairs, far apart", |_, n| Some(cubes(n, 1, n.checked_sub(1)?))),
    ("pairs, middle direction", |_, n| Some(cubes(n, 1, n / 2))),
    ("fours, far apart", |_, n| Some(cubes(n, 2, n.checked_sub(2)?))),
    ("2^n jobs", |_, n| Some(cubes(n, 0, 0))),
    ("2^n jobs, descending", |_, n| Some(descending(n))),
    ("every other node a job's", |_, n| Some(every_other(n))),
    ("half one job's, each other node a job's", |_, n| Some(half_and_ones(n))),
    ("a session, buddy", |_, n| Some(used(n, 0))),
    ("a session, Gray, relabelled", |_, n| Some(relabelled(n, 1))),
    ("a session, extended, relabelled", |_, n| Some(relabelled(n, 3))),
];

/// They load, and are drawn.
const DRAWN: [Pattern; 6] = [
    ("nothing held, drawn conditions", |rng, n| Some(reported(rng, n))),
    ("2^n jobs, drawn numbers", |rng, n| Some(renamed(rng, cubes(n, 0, 0)))),
    ("2^n jobs, drawn order", |rng, n| Some(shuffled(rng, n))),
    ("pairs, drawn direction and numbers", |rng, n| {
        let star = rng.below(n.max(1));
        Some(renamed(rng, cubes(n, 1, star)))
    }),
    ("half held by drawn buddies", |rng, n| Some(buddies(rng, n, 2))),
    ("all held by drawn buddies", |rng, n| Some(buddies(rng, n, 1))),
];

/// They are refused 18, and are the same always: the fault is at the first node,
/// at the last, or between them.
const WRONG: [Pattern; 10] = [
    ("one job, first star bits wrong", |_, n| Some(starred(cubes(n, n, 0), 0))),
    ("one job, last star bits wrong", |_, n| Some(starred(cubes(n, n, 0), last(n)))),
    ("one job, last node lost", |_, n| lost(cubes(n, n, 0))),
    ("pairs, first star bits wrong", |_, n| Some(starred(cubes(n, 1, 0), 0))),
    ("pairs, last star bits wrong", |_, n| Some(starred(cubes(n, 1, 0), last(n)))),
    ("pairs, far apart, last node lost", |_, n| lost(cubes(n, 1, n.checked_sub(1)?))),
    ("2^n jobs, first star bits wrong", |_, n| Some(starred(cubes(n, 0, 0), 0))),
    ("2^n jobs, last star bits wrong", |_, n| Some(starred(cubes(n, 0, 0), last(n)))),
    ("2^n jobs, first and last the same", |_, n| joined(cubes(n, 0, 0), [0, last(n)])),
    ("2^n jobs, last two the same", |_, n| joined(cubes(n, 0, 0), [last(n) / 2 * 2, last(n)])),
];

/// They are refused 18, and are drawn.
const DRAWN_WRONG: [Pattern; 5] = [
    ("2^n jobs, drawn numbers, last star bits wrong", |rng, n| {
        Some(starred(renamed(rng, cubes(n, 0, 0)), last(n)))
    }),
    ("2^n jobs, drawn order, first and last the same", |rng, n| {
        joined(shuffled(rng, n), [0, last(n)])
    }),
    ("2^n jobs, drawn order, two drawn ones the same", |rng, n| {
        let (x, apart) = (rng.below(1 << n), 1 + rng.below(last(n).max(1)));
        joined(shuffled(rng, n), [x, (x + apart) % (1 << n)])
    }),
    ("drawn holders, 4 jobs", |rng, n| any(rng, n, 4)),
    ("drawn holders, any jobs", |rng, n| any(rng, n, 65535)),
];

/// They are refused 1, for a byte of the head or for the last that is read of a
/// part.
const NO_RECORD: [Pattern; 5] = [
    ("kind wrong", |_, n| byte(cubes(n, n, 0), 2, 1)),
    ("map wrong", |_, n| byte(cubes(n, n, 0), 14, 0)),
    ("last condition wrong", |_, n| byte(cubes(n, n, 0), CONDITIONS + last(n) as usize, 3)),
    ("last byte wrong, nothing held", |_, n| byte(nothing(n), SIZE - 1, 1)),
    ("pairs, last node unheld, star bits left", |_, n| {
        Some(starred(lost(cubes(n, 1, 0))?, last(n)))
    }),
];

/// Nothing is held, and each node has a drawn condition.
fn reported(rng: &mut Rng, n: u32) -> Record {
    let mut record = nothing(n);
    (0..1 << n).for_each(|x| set_condition(&mut record, x, rng.below(3) as u8));
    record
}

/// Each pattern with a title and its rows, n from 0 to 10. A row's records all
/// give the number that its title has.
pub fn all() -> impl Iterator<Item = (String, Vec<Row>)> {
    let patterns = [
        (&EQUAL[..], 1, 0),
        (&DRAWN, RECORDS, 0),
        (&WRONG, 1, 18),
        (&DRAWN_WRONG, RECORDS, 18),
        (&NO_RECORD, 1, 1),
    ];
    patterns.into_iter().flat_map(|(patterns, records, number)| {
        patterns.iter().map(move |pattern| {
            let title = format!("load {number}, {}", pattern.0);
            let rows = (0..=10).filter_map(|n| row(&title, n, pattern, records)).collect();
            (title, rows)
        })
    })
}

fn row(title: &str, n: u32, (_, make): &Pattern, records: usize) -> Option<Row> {
    let rng = &mut Rng::new(22);
    let starts: Vec<Record> = (0..records).map(|_| make(rng, n)).collect::<Option<_>>()?;
    let told = |start| title.starts_with(&format!("load {},", load(start)));
    assert!(starts.iter().all(|start| told(start)), "{title}, n {n}");
    Some(Row { name: title.to_string(), n, starts, call: vec![] })
}
