//! Document 01, "Sessions of known outcome": the ten rows, in frames.

use crate::support::*;

/// Rows 1 to 3: n 4, all good, requests of k 0, 3, 2, 1, 0 by jobs 1 to 5.
fn five_requests(strategy: u8, expected: [(u16, u16, u16); 5]) {
    let mut cube = Cube::with_good(4, |_| true);
    for ((job, k), (lowest, stars, tried)) in (1..).zip([0, 3, 2, 1, 0]).zip(expected) {
        let got = cube.call(&request(job, k, strategy));
        assert_eq!(got, granted(job, lowest, stars, tried), "strategy {strategy}, job {job}");
    }
}

#[test]
fn row_1_buddy() {
    five_requests(BUDDY, [(0, 0, 1), (8, 7, 2), (4, 3, 2), (2, 1, 2), (1, 0, 2)]);
}

#[test]
fn row_2_gray() {
    five_requests(GRAY, [(0, 0, 1), (4, 11, 2), (8, 3, 7), (1, 2, 2), (2, 0, 4)]);
}

#[test]
fn row_3_tree() {
    five_requests(TREE, [(0, 0, 1), (4, 11, 3), (2, 9, 5), (1, 8, 7), (8, 0, 9)]);
}

#[test]
fn row_4_extended_finds_what_the_tree_misses() {
    let mut cube = Cube::with_good(4, |node| [0, 2, 8, 10].contains(&node));
    assert_eq!(cube.call(&request(1, 2, TREE)), refused(14, 12));
    assert_eq!(cube.call(&request(1, 2, EXTENDED)), granted(1, 0, 10, 13));
    assert_eq!(cube.held_by(1), [0, 2, 8, 10]);
}

#[test]
fn row_5_extended_misses() {
    let mut cube = Cube::with_good(4, |node| [0, 2, 4, 6].contains(&node));
    assert_eq!(cube.call(&request(1, 2, EXTENDED)), refused(14, 20));
}

#[test]
fn row_6_a_faulty_node() {
    let mut cube = Cube::with_good(3, |node| node != 4);
    assert_eq!(cube.call(&fault(4)), Got::Done(0));
    assert_eq!(cube.call(&request(1, 1, BUDDY)), granted(1, 0, 1, 1));
    assert_eq!(cube.call(&request(2, 2, BUDDY)), refused(14, 2));
}

/// The labels of these faulty nodes once all others have reported good and the
/// cube has been relabelled.
fn labels_of_faulty(n: u32, nodes: &[u16]) -> Vec<u32> {
    let mut cube = Cube::with_not_good(n, &[], nodes);
    assert!(matches!(cube.call(&relabel()), Got::Done(_)));
    nodes.iter().map(|node| cube.label((*node).into())).collect()
}

#[test]
fn row_7_labels() {
    assert_eq!(labels_of_faulty(6, &[21, 29, 5]), [22, 23, 20]);
}

#[test]
fn row_8_labels() {
    assert_eq!(labels_of_faulty(3, &[0, 4]), [0, 1]);
    assert_eq!(labels_of_faulty(3, &[0, 7]), [0, 7]);
}

#[test]
fn row_9_one_node() {
    for strategy in 0..=4 {
        let mut cube = Cube::with_good(0, |_| true);
        assert_eq!(cube.call(&request(1, 0, strategy)), granted(1, 0, 0, 1));
    }
}

#[test]
fn row_10_a_silent_node() {
    let mut cube = Cube::with_good(2, |node| node != 3);
    assert_eq!(cube.call(&request(1, 2, BUDDY)), refused(14, 1));
}
