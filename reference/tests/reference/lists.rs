//! Random lists of calls, compared with the history after every call: on a fresh
//! cube, on any record, and, by document 02, (g), on records that load.

use cube_reference::gen::Log;
use cube_reference::rng::Rng;
use cube_reference::{call, load};

use crate::held::Held;
use crate::history::History;
use crate::placed::any_cubes;
use crate::support::*;

/// Makes the calls of a random list on the record and in the history, and
/// compares the number, the reply and the whole record after each. If the record
/// loads, so does each after it, and what is held is followed. Gives the record.
fn compare(history: &mut History, seed: u64, count: u64, rng: &mut Rng) -> Vec<u8> {
    let mut record = history.record();
    let mut held = (load(&record) == 0).then(|| Held::of(&record));
    let mut log = Log::new(seed, count, record[..].try_into().unwrap());
    for _ in 0..count {
        let frame = &log.next(record[..].try_into().unwrap());
        let length = rng.pick(&[12, 12, 12, 12, 12, 12, 13, 40, 11, 0]);
        let conditions = history.condition.clone();
        let (number, expected) = replied(history, frame, length);
        let mut reply = vec![0xcc; length];
        assert_eq!(call(&mut record, frame, &mut reply), number.into(), "{seed} {frame:x?}");
        assert_eq!(reply, expected, "seed {seed}, frame {frame:x?}");
        assert!(record == history.record(), "record, seed {seed}, frame {frame:x?}");
        if let Some(held) = &mut held {
            if number == 0 {
                held.add(frame, &reply, &conditions);
            }
            held.stands_in(&record);
            assert_eq!(load(&record), 0, "seed {seed}, frame {frame:x?}");
        }
    }
    record
}

/// The number that the history returns, and what it leaves in a reply buffer of
/// this length.
fn replied(history: &mut History, frame: &[u8], length: usize) -> (u16, Vec<u8>) {
    let (number, words) = history.call(frame, length);
    let mut reply = vec![0xcc; length];
    if let Some(words) = words {
        let size = 2 + 2 * words.len();
        let bytes = two(size as u16).into_iter().chain(words.into_iter().flat_map(two));
        reply.splice(..size, bytes);
    }
    (number, reply)
}

/// A fresh record loads.
#[test]
fn lists_of_calls_follow_the_history() {
    let mut rng = Rng::new(2);
    for seed in 0..44 {
        let mut history = History::fresh((seed % 11) as u32);
        assert_eq!(load(&history.record()), 0);
        compare(&mut history, seed, 1200, &mut rng);
    }
}

#[test]
fn calls_on_any_valid_record_follow_it_too() {
    let mut rng = Rng::new(3);
    for seed in 0..1100 {
        let mut history = History::any((seed % 11) as u32, &mut rng);
        compare(&mut history, seed, 40, &mut rng);
    }
}

/// The end of a list is stored and loaded, and the next list begins there.
#[test]
fn lists_go_on_from_the_end_of_another() {
    let mut rng = Rng::new(4);
    let mut held = 0;
    for seed in 0..44 {
        let mut history = History::fresh((seed % 11) as u32);
        for part in 0..6 {
            let record = compare(&mut history, 100 * seed + part, 150, &mut rng);
            assert_eq!(load(&record), 0);
            held += usize::from(Held::of(&record) != Held::of(&History::fresh(0).record()));
            history = History::of(&record);
            assert!(history.record() == record);
        }
    }
    assert!(held >= 100, "{held} lists ended with something held");
}

/// Subcubes, conditions and a map that no list need leave; held nodes that
/// aren't good are among them.
#[test]
fn lists_go_on_from_any_record_that_loads() {
    let mut rng = Rng::new(6);
    let mut bad = 0;
    for seed in 0..330 {
        let (cube, _) = any_cubes((seed % 11) as u32, &mut rng);
        assert_eq!(load(&cube.record), 0);
        let mut history = History::of(&cube.record);
        bad += history.bad_held();
        let record = compare(&mut history, seed, 120, &mut rng);
        assert_eq!(load(&record), 0);
    }
    assert!(bad >= 1000, "{bad} held nodes weren't good");
}
