//! The random logs: the same for a seed, and at work on document 01's edges.

use std::collections::BTreeMap;
use std::process::Command;

use cube_reference::call;
use cube_reference::drawn::{Drawn, List};
use cube_reference::gen::write_log;
use cube_reference::log::run;
use cube_reference::session::fresh;

use crate::support::at;

const SEEDS: u64 = 88;
const FRAMES: u64 = 1000;

fn log(seed: u64) -> Vec<u8> {
    let mut bytes = Vec::new();
    write_log(seed, FRAMES, &mut bytes).unwrap();
    bytes
}

fn lines(seed: u64) -> Vec<String> {
    let mut output = Vec::new();
    run(&log(seed)[..], &mut output).unwrap();
    String::from_utf8(output).unwrap().lines().map(String::from).collect()
}

#[test]
fn a_seed_gives_one_log() {
    assert_eq!(log(5), log(5));
    assert_ne!(log(5), log(16)); // the same n
    let arguments = ["5", &FRAMES.to_string()];
    let output = Command::new(env!("CARGO_BIN_EXE_cube-gen")).args(arguments).output().unwrap();
    assert!(output.status.success());
    assert_eq!(output.stdout, log(5));
}

#[test]
fn a_log_has_so_many_frames_and_its_n_from_the_seed() {
    for seed in 0..SEEDS {
        let lines = lines(seed);
        assert_eq!(lines.len() as u64, FRAMES + 1);
        assert_eq!(lines[0], format!("1 setup {}", seed % 11));
    }
    let mut empty = Vec::new();
    write_log(1, 0, &mut empty).unwrap();
    assert!(empty.is_empty());
}

/// How often each outcome comes, refusals by number.
fn outcomes(lines: &[String]) -> BTreeMap<String, u32> {
    let mut counts = BTreeMap::new();
    for line in &lines[..lines.len() - 1] {
        let words: Vec<&str> = line.split(' ').collect();
        let name = match words[1] {
            "refused" => format!("refused {}", words[2]),
            other => other.to_string(),
        };
        *counts.entry(name).or_insert(0) += 1;
    }
    counts
}

#[test]
fn every_log_works_and_all_outcomes_come() {
    let mut all = BTreeMap::new();
    for seed in 0..SEEDS {
        let counts = outcomes(&lines(seed));
        assert!(counts["granted"] >= 10, "seed {seed}: {counts:?}");
        for (name, count) in counts {
            *all.entry(name).or_insert(0) += count;
        }
    }
    for number in (4..=14).chain([17]) {
        assert!(all[&format!("refused {number}")] >= 100, "{number}: {all:?}");
    }
    let broken = all["refused 3"];
    assert!((1..SEEDS as u32).contains(&broken), "{broken} broken ends");
}

/// Counts the frames of all logs that have these first bytes and whose line
/// ends in these words.
fn met(start: &[u8], words: &str) -> usize {
    let mut count = 0;
    for seed in 0..SEEDS {
        let (log, lines) = (log(seed), lines(seed));
        let mut rest = &log[..];
        for line in &lines[..lines.len() - 2] {
            let (frame, after) = rest.split_at(usize::from(rest[0]) + 256 * usize::from(rest[1]));
            rest = after;
            count += usize::from(frame.starts_with(start) && line.ends_with(words));
        }
    }
    count
}

/// The frames of a log after its set-up; a broken end comes as it is.
fn frames(log: &[u8]) -> Vec<&[u8]> {
    let (mut frames, mut rest) = (Vec::new(), &log[6..]);
    while !rest.is_empty() {
        let length = if rest.len() < 4 { 0 } else { usize::from(at(rest, 0)) };
        let taken = if (4..=rest.len()).contains(&length) { length } else { rest.len() };
        frames.push(&rest[..taken]);
        rest = &rest[taken..];
    }
    frames
}

/// What logs of 3000 frames draw for each n, twelve logs each.
fn drawn() -> [Drawn; 11] {
    let mut drawn = [Drawn::default(); 11];
    for seed in 0..132 {
        let mut log = Vec::new();
        write_log(seed, 3000, &mut log).unwrap();
        let (mut record, mut list) = (fresh((seed % 11) as u32), List::default());
        for frame in frames(&log) {
            let before = record;
            let number = call(&mut record, frame, &mut [0; 12]);
            list.add(frame, number, &before, &record);
        }
        drawn[(seed % 11) as usize] += list.drawn;
    }
    drawn
}

/// Silent and faulty nodes together make a D that is neither empty nor all n,
/// and grants follow.
#[test]
fn relabels_are_drawn_with_every_kind_of_d() {
    for (n, drawn) in drawn().into_iter().enumerate() {
        assert!(drawn.empty >= 20 && (n == 0 || drawn.all >= 20), "n {n}: {drawn:?}");
        assert!(n < 2 || drawn.mixed >= 20 && drawn.after_mixed >= 40, "n {n}: {drawn:?}");
    }
}

/// Each sort of growth comes at every n where it can, and each sort of call by
/// star bits and by best fit.
#[test]
fn calls_are_drawn_of_every_sort() {
    for (n, drawn) in drawn().into_iter().enumerate() {
        for (sort, least, count) in drawn.sorts() {
            assert!(n < least || count >= 10, "n {n}, {sort}: {count}");
        }
    }
}

#[test]
fn edges_are_met() {
    assert!(met(&[4, 0, 0x03, 0x02], " done 2") > 10); // relabel, D of 2
    assert!(met(&[8, 0, 0x01, 0x02, 0xff, 0xff], " refused 10 0") > 10);
    assert!(met(&[6, 0, 0x02, 0x02, 0xff, 0xff], " done 1") > 10);
    assert!(met(&[6, 0, 0x01, 0x03], " refused 4 0") > 10);
    assert!(met(&[6, 0, 0x01, 0x01, 0x00, 0x04], " refused 8 0") > 0); // node 1024
    assert!(met(&[6, 0, 0x01, 0x01, 0xff, 0x03], " done 0") > 0); // node 1023
    assert!(met(&[0xff, 0xff], " 0") > 0); // the longest frame
    assert!(met(&[8, 0, 0x04, 0x02, 0, 0], " refused 6 0") > 10);
    assert!(met(&[8, 0, 0x04, 0x02, 0xff, 0xff], " refused 17 0") > 10);
    let tried = [" 255 1", " 255 2", " 255 3"]; // growths to 256 nodes
    assert!(tried.iter().any(|words| met(&[8, 0, 0x04, 0x02], words) > 0));
}
