//! Document 02, (a): best fit among buddies. The outcomes are worked out by hand.

use cube_reference::rng::Rng;
use cube_reference::{choose, family, Answer};

use crate::blocks;
use crate::support::*;

/// At first the maximal free blocks are 0 to 3, 5, and 6 and 7.
#[test]
fn row_6_of_the_sessions() {
    let mut cube = Cube::with_not_good(3, &[], &[4]);
    assert_eq!(cube.call(&request(1, 1, BEST_FIT)), granted(1, 6, 1, 3));
    assert_eq!(cube.held_by(1), [6, 7]);
    assert_eq!(cube.call(&request(2, 2, BEST_FIT)), granted(2, 0, 3, 2));
    assert_eq!(cube.held_by(2), [0, 1, 2, 3]);
    assert_eq!(cube.call(&request(3, 0, BEST_FIT)), granted(3, 5, 0, 1));
    refuses(&cube, &request(4, 0, BEST_FIT), 14, 0);
}

/// Rows 1 to 3: n 4, all good, requests of k 0, 3, 2, 1, 0. The blocks are 0-15;
/// 1, 2-3, 4-7, 8-15; 1, 2-3, 4-7; 1, 2-3; 1.
#[test]
fn the_requests_of_rows_1_to_3() {
    let mut cube = Cube::with_good(4, |_| true);
    let expected = [(0, 0, 1), (8, 7, 4), (4, 3, 3), (2, 1, 2), (1, 0, 1)];
    for ((job, k), (lowest, stars, tried)) in (1..).zip([0, 3, 2, 1, 0]).zip(expected) {
        assert_eq!(cube.call(&request(job, k, BEST_FIT)), granted(job, lowest, stars, tried));
    }
    for k in 0..=4 {
        refuses(&cube, &request(6, k, BEST_FIT), 14, 0);
    }
}

/// Labels 0 to 3 and 8 to 11 are as large; 6, and 12 and 13, are smaller.
#[test]
fn of_blocks_as_small_the_lowest_label() {
    let is_good = |node| [0, 1, 2, 3, 6, 8, 9, 10, 11, 12, 13].contains(&node);
    let cube = || Cube::with_good(4, is_good);
    assert_eq!(cube().call(&request(1, 2, BEST_FIT)), granted(1, 0, 3, 4));
    assert_eq!(cube().call(&request(1, 1, BEST_FIT)), granted(1, 12, 1, 4));
    assert_eq!(cube().call(&request(1, 0, BEST_FIT)), granted(1, 6, 0, 4));
    let mut cube = cube();
    for (lowest, tried) in [(0, 4), (8, 3)] {
        assert_eq!(
            cube.call(&request(lowest + 1, 2, BEST_FIT)),
            granted(lowest + 1, lowest, 3, tried)
        );
    }
    refuses(&cube, &request(2, 2, BEST_FIT), 14, 2);
}

/// 4 to 7 is the only block, and not a pair or a node of it.
#[test]
fn a_large_block_gives_its_lowest_part() {
    for (k, stars) in [(0, 0), (1, 1), (2, 3)] {
        let mut cube = Cube::with_good(3, |node| node >= 4);
        assert_eq!(cube.call(&request(1, k, BEST_FIT)), granted(1, 4, stars, 1));
        assert_eq!(cube.held_by(1), Vec::from_iter(4..=4 + stars));
    }
}

/// 3 and 4 are neighbours by number and no buddies; nor are 2-3 and 4-5, or 0
/// and 4, which form subcubes of other families.
#[test]
fn blocks_are_buddies_alone() {
    let mut cube = Cube::with_good(3, |node| (2..=5).contains(&node));
    refuses(&cube, &request(1, 2, BEST_FIT), 14, 2);
    assert_eq!(cube.call(&request(1, 1, BEST_FIT)), granted(1, 2, 1, 2));
    let cube = Cube::with_good(3, |node| node % 4 == 0);
    refuses(&cube, &request(1, 1, BEST_FIT), 14, 2);
    assert_eq!(Cube { record: cube.record }.call(&request(1, 1, TREE)), granted(1, 0, 4, 3));
}

/// Blocks smaller than k are counted, and larger ones.
#[test]
fn tried_is_the_number_of_all_blocks() {
    let cube = Cube::with_good(10, |node| node % 2 == 1);
    refuses(&cube, &request(1, 1, BEST_FIT), 14, 512);
    refuses(&cube, &request(1, 10, BEST_FIT), 14, 512);
    assert_eq!(Cube { record: cube.record }.call(&request(1, 0, BEST_FIT)), granted(1, 1, 0, 512));
    // 1, 2-3, 4-7, up to 512-1023: ten blocks.
    for k in 0..=9 {
        let mut cube = Cube::with_good(10, |node| node != 0);
        let (lowest, stars) = (1 << k, (1 << k) - 1);
        assert_eq!(cube.call(&request(1, k, BEST_FIT)), granted(1, lowest, stars, 10));
        refuses(&cube, &request(2, 10, BEST_FIT), 14, 9);
    }
}

#[test]
fn nothing_free_is_no_block() {
    for n in 0..=10 {
        for k in 0..=n as u8 {
            refuses(&Cube::new(n), &request(1, k, BEST_FIT), 14, 0);
        }
        let mut cube = Cube::with_good(n, |_| true);
        assert_eq!(cube.call(&request(1, n as u8, BEST_FIT)), granted(1, 0, (1 << n) - 1, 1));
        refuses(&cube, &request(2, 0, BEST_FIT), 14, 0);
        refuses(&cube, &request(2, n as u8 + 1, BEST_FIT), 7, 0);
        assert_eq!(cube.call(&release(1)), Got::Done(1 << n));
    }
}

/// Job 1 holds 0 and 1, job 2 holds 4. To job 1 the blocks are 0 to 3, 5, and 6
/// and 7; to job 2 they are 2 and 3, and 4 to 7; to another 2 and 3, 5, and 6 and
/// 7.
#[test]
fn blocks_are_those_free_to_the_asking_job() {
    let mut cube = Cube::with_good(3, |_| true);
    (0..2).for_each(|node| cube.hold(node, 1, 1));
    cube.hold(4, 2, 0);
    let again = || Cube { record: cube.record.clone() };
    refuses(&cube, &grow(1, 3, BEST_FIT), 14, 3);
    refuses(&cube, &grow(2, 3, BEST_FIT), 14, 2);
    refuses(&cube, &request(3, 2, BEST_FIT), 14, 3);
    let mut first = again();
    assert_eq!(first.call(&grow(1, 2, BEST_FIT)), granted(1, 0, 3, 3));
    assert_eq!(first.held_by(1), [0, 1, 2, 3]);
    let mut second = again();
    assert_eq!(second.call(&grow(2, 2, BEST_FIT)), granted(2, 4, 3, 2));
    assert_eq!(second.held_by(2), [4, 5, 6, 7]);
    // It leaves its own block for a smaller one.
    let mut moved = again();
    assert_eq!(moved.call(&grow(2, 1, BEST_FIT)), granted(2, 2, 1, 2));
    assert_eq!(moved.held_by(2), [2, 3]);
    assert_eq!(moved.held_by(1), [0, 1]);
    let mut third = again();
    assert_eq!(third.call(&request(3, 1, BEST_FIT)), granted(3, 2, 1, 3));
}

/// Job 1 holds 0 and 1. With 0 faulty its blocks are 1, 2 and 3, and 4 to 7.
#[test]
fn an_own_node_that_is_not_good_is_in_no_block() {
    let mut cube = Cube::with_good(3, |_| true);
    (0..2).for_each(|node| cube.hold(node, 1, 1));
    assert_eq!(cube.call(&fault(0)), Got::Done(1));
    refuses(&cube, &grow(1, 3, BEST_FIT), 14, 3);
    refuses(&cube, &grow(1, 1, BEST_FIT), 17, 0);
    assert_eq!(cube.call(&grow(1, 2, BEST_FIT)), granted(1, 4, 3, 3));
    assert_eq!(cube.held_by(1), [4, 5, 6, 7]);
}

/// Own nodes that aren't good and no others: nothing is free to the job.
#[test]
fn a_growth_may_find_no_block() {
    let mut cube = Cube::with_good(1, |node| node == 0);
    assert_eq!(cube.call(&request(1, 0, BEST_FIT)), granted(1, 0, 0, 1));
    refuses(&cube, &grow(1, 1, BEST_FIT), 14, 1);
    assert_eq!(cube.call(&fault(0)), Got::Done(1));
    refuses(&cube, &grow(1, 1, BEST_FIT), 14, 0);
}

/// Nodes 0 and 4 are faulty, so that labels 0 to 7 are the nodes 0, 4, 1, 5, 2,
/// 6, 3, 7. By label the blocks are 2 and 3, and 4 to 7; by node they would be
/// 1, 2 and 3, 5, and 6 and 7.
#[test]
fn blocks_are_by_label_and_grants_in_node_numbers() {
    let mut cube = Cube::with_not_good(3, &[], &[0, 4]);
    refuses(&cube, &request(1, 2, BEST_FIT), 14, 4);
    assert_eq!(cube.call(&relabel()), Got::Done(1));
    assert_eq!(cube.call(&request(1, 0, BEST_FIT)), granted(1, 1, 0, 2));
    assert_eq!(cube.call(&request(2, 1, BEST_FIT)), granted(2, 2, 4, 2));
    assert_eq!(cube.held_by(2), [2, 6]);
    // Free to job 2 are the labels 3, and 4 to 7.
    assert_eq!(cube.call(&grow(2, 2, BEST_FIT)), granted(2, 2, 5, 2));
    assert_eq!(cube.held_by(2), [2, 3, 6, 7]);
    assert_eq!(cube.call(&request(3, 0, BEST_FIT)), granted(3, 5, 0, 1));
    refuses(&cube, &request(4, 0, BEST_FIT), 14, 0);
}

/// Each node carries the star bits of the part, not of its block.
#[test]
fn star_bits_are_those_of_the_part() {
    let mut cube = Cube::with_good(3, |_| true);
    let expected = [(HOLDERS, 1), (HOLDERS + 2, 1), (STARS, 1), (STARS + 2, 1)];
    changes(&mut cube, &request(1, 1, BEST_FIT), &expected);
}

fn free_labels(n: u32, rng: &mut Rng) -> Vec<bool> {
    let taken = 1 + rng.below(12);
    (0..1 << n).map(|_| rng.below(16) >= taken).collect()
}

/// 'None free' has buddy's family, and the choice is the sentence's.
#[test]
fn choose_is_the_best_fit() {
    let mut rng = Rng::new(7);
    let (mut found, mut none) = (0, 0);
    for round in 0..1100 {
        let n = round % 11;
        let free = free_labels(n, &mut rng);
        for k in 0..=n {
            let answer = choose(BEST_FIT, n, k, &|label| free[label as usize]);
            let by_buddy = choose(BUDDY, n, k, &|label| free[label as usize]);
            let (part, tried) = blocks::best_fit(k as u8, &free);
            let (low, stars, tried) = match part {
                Some((low, stars)) => (low as u32, stars as u32, tried.into()),
                None => (0, 0, tried.into()),
            };
            match answer {
                Answer::Found { .. } => {
                    assert_eq!(answer, Answer::Found { low, stars, tried }, "{n} {k} {free:?}");
                    let is_part = |member: &cube_reference::Subcube| member.low == low;
                    assert!(family(BUDDY, n, k).iter().any(is_part));
                    assert!(matches!(by_buddy, Answer::Found { .. }));
                    found += 1;
                }
                Answer::NoneFree { count } => {
                    assert_eq!((part, count), (None, tried), "{n} {k} {free:?}");
                    assert!(matches!(by_buddy, Answer::NoneFree { .. }));
                    none += 1;
                }
            }
        }
    }
    assert!(found > 1000 && none > 1000, "{found} {none}");
}

/// The maximal free blocks have each free label once, and no other.
#[test]
fn blocks_part_the_free_labels() {
    let mut rng = Rng::new(8);
    for round in 0..220 {
        let free = free_labels(round % 11, &mut rng);
        let mut covered = vec![false; free.len()];
        for (low, size) in blocks::maximal(&free) {
            for covered in &mut covered[low..low + size] {
                assert!(!*covered);
                *covered = true;
            }
        }
        assert_eq!(covered, free);
    }
}
