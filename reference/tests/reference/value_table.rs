//! What `value-table` prints reaches every number and kind that a call on
//! values can meet, and its sum is the one that is written down.

use std::collections::BTreeSet;

use cube_reference::drawn::List;
use cube_reference::frame::{Call, Reply};
use cube_reference::session::{calls, damaged, frame_of, make, start, sum, DAMAGES, EACH, RIGHT};

use crate::support::SIZE;

/// The calls of each session with what they gave.
fn sessions() -> Vec<(Call, Reply)> {
    let mut all = Vec::new();
    for n in 0..=10 {
        let mut record = start(n);
        all.extend(calls(n).into_iter().map(|call| (call, make(&mut record, call).reply)));
    }
    all
}

#[test]
fn the_sessions_meet_every_number_from_6_on() {
    let met: BTreeSet<u16> = sessions()
        .iter()
        .filter_map(|(_, reply)| match reply {
            Reply::Refused { number, .. } => Some(*number),
            _ => None,
        })
        .collect();
    assert_eq!(met, (6..=14).chain([17]).collect());
}

#[test]
fn the_sessions_have_every_kind_accepted_and_every_strategy_granted() {
    let (mut done, mut granted, mut grown) = (BTreeSet::new(), BTreeSet::new(), BTreeSet::new());
    for (call, reply) in sessions() {
        match (call, reply) {
            (Call::Request { strategy, .. }, Reply::Granted { .. }) => granted.insert(strategy),
            (Call::Grow { strategy, .. }, Reply::Granted { .. }) => grown.insert(strategy),
            (Call::Good { .. }, Reply::Done { value: 0 }) => done.insert("good"),
            (Call::Fault { .. }, Reply::Done { value: 0 }) => done.insert("fault"),
            (Call::Fault { .. }, Reply::Done { .. }) => done.insert("fault of a held node"),
            (Call::Repaired { .. }, Reply::Done { .. }) => done.insert("repaired"),
            (Call::Relabel, Reply::Done { value: 0 }) => done.insert("relabel, D empty"),
            (Call::Relabel, Reply::Done { .. }) => done.insert("relabel"),
            (Call::Release { .. }, Reply::Done { .. }) => done.insert("release"),
            (_, Reply::Refused { .. }) => false,
            other => panic!("no call gives {other:?}"),
        };
    }
    assert_eq!(granted, (0..=4).collect());
    assert_eq!(grown, (0..=4).collect());
    assert_eq!(done.len(), 7, "{done:?}");
}

#[test]
fn the_sessions_have_every_sort_of_call() {
    let mut list = List::default();
    for n in 0..=10 {
        let mut record = start(n);
        for call in calls(n) {
            let before = record;
            let number = make(&mut record, call).number;
            list.add(&frame_of(call), number, &before, &record);
        }
    }
    let missing: Vec<_> = list.drawn.sorts().filter(|(.., count)| *count == 0).collect();
    assert!(missing.is_empty(), "{missing:?}");
}

#[test]
fn each_damage_that_is_not_right_is_refused_1() {
    for damage in 0..RIGHT {
        let mut record = damaged(damage);
        assert!(EACH.iter().all(|call| make(&mut record, *call).number != 1));
    }
    for damage in RIGHT..DAMAGES {
        let mut record = damaged(damage);
        for call in EACH {
            let given = make(&mut record, call);
            assert_eq!((given.number, given.words), (1, [61166; 6]), "damage {damage}");
            assert_eq!(given.reply, Reply::Refused { number: 1, tried: 0 });
        }
        assert!(record == damaged(damage));
    }
}

/// The sum of a record with one byte 1, so many places before the last.
fn sum_of_one(before_last: usize) -> u32 {
    let mut record = [0; SIZE];
    record[SIZE - 1 - before_last] = 1;
    sum(&record)
}

#[test]
fn the_sum_is_as_written_down() {
    assert_eq!(sum_of_one(0), 1);
    assert_eq!(sum_of_one(1), 31);
    assert_eq!(sum_of_one(4), 923_521);
    assert_eq!(sum_of_one(5), 193_037); // 923521 - 14 * 65521 is 6227, and 31 * 6227 this
    assert_ne!(sum_of_one(SIZE - 5), 0);
    assert_eq!(sum_of_one(SIZE - 4), 0, "the bytes before n are not in it");
}
