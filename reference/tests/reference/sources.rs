//! Figures and examples of documents 000 and 003.

use std::collections::BTreeSet;

use cube_reference::{family, gray, relabel as new_map, Map, Subcube};

use crate::support::*;

fn binary(words: &str) -> Vec<u32> {
    words.split_whitespace().map(|word| u32::from_str_radix(word, 2).unwrap()).collect()
}

/// Addresses such as 0*1*, highest bit first, a star for each free bit.
fn addresses(words: &str) -> Vec<Subcube> {
    let low = |word: &str| binary(&word.replace('*', "0"))[0];
    let high = |word: &str| binary(&word.replace('*', "1"))[0];
    words.split_whitespace().map(|w| Subcube { low: low(w), stars: low(w) ^ high(w) }).collect()
}

/// Document 000, figures 4 and 8: requests of Q0, Q3, Q2, Q1, Q0 in a 4-cube
/// get these processors.
fn allocates(strategy: u8, processors: [&str; 5]) {
    let mut cube = Cube::with_good(4, |_| true);
    for ((job, k), listed) in (1..).zip([0, 3, 2, 1, 0]).zip(processors) {
        let got = cube.call(&request(job, k, strategy));
        assert!(matches!(got, Got::Granted { .. }));
        let held: BTreeSet<u32> = cube.held_by(job).into_iter().map(u32::from).collect();
        assert_eq!(held, binary(listed).into_iter().collect(), "request {job}");
    }
}

#[test]
fn figure_4_buddy() {
    let second = "1000 1001 1010 1011 1100 1101 1110 1111";
    allocates(BUDDY, ["0000", second, "0100 0101 0110 0111", "0010 0011", "0001"]);
}

#[test]
fn figure_8_tree() {
    let second = "0110 0111 0101 0100 1100 1101 1111 1110";
    allocates(TREE, ["0000", second, "0011 0010 1010 1011", "0001 1001", "1000"]);
}

/// The partial rank of each g: its rank among those up to it.
fn partial_ranks(g: &[usize]) -> Vec<usize> {
    (0..g.len()).map(|i| g[..=i].iter().filter(|other| **other <= g[i]).count()).collect()
}

/// Document 000's code with parameters g, by its recursion over the ranks:
/// a digit is put in at the rank's place, counted from 1 at the right.
fn code(g: &[usize]) -> Vec<u32> {
    let insert = |word: u32, digit: u32, rank: usize| {
        let below = word & ((1 << (rank - 1)) - 1);
        (word - below) << 1 | digit << (rank - 1) | below
    };
    let mut words = vec![0, 1];
    for rank in partial_ranks(g).into_iter().skip(1) {
        let first = words.iter().map(|word| insert(*word, 0, rank));
        let second = words.iter().rev().map(|word| insert(*word, 1, rank));
        words = first.chain(second).collect();
    }
    words
}

#[test]
fn examples_6_7_and_8_codes_by_partial_ranks() {
    assert_eq!(partial_ranks(&[3, 1, 2]), [1, 1, 2]);
    assert_eq!(partial_ranks(&[2, 3, 1]), [1, 2, 1]);
    assert_eq!(code(&[2, 3]), binary("00 01 11 10"));
    assert_eq!(code(&[2, 3, 1]), binary("000 010 110 100 101 111 011 001"));
    assert_eq!(code(&[1, 2, 3]), binary("000 001 011 010 110 111 101 100"));
}

#[test]
fn g_of_b_is_the_code_whose_ranks_ascend() {
    for n in 1..=10 {
        let ascending: Vec<usize> = (1..=n).collect();
        let by_rule: Vec<u32> = (0..1 << n).map(gray).collect();
        assert_eq!(code(&ascending), by_rule);
        let singles: Vec<u32> = family(GRAY, n as u32, 0).iter().map(|m| m.low).collect();
        assert_eq!(code(&ascending), singles);
    }
    assert_eq!(gray(0b101), 0b111); // example 9
}

#[test]
fn example_18_families_of_a_4_cube() {
    let buddy = "00** 01** 10** 11**";
    let gray = "00** 0*1* 01** *10* 11** 1*1* 10** *00*";
    let tree = "00** 0*0* *00* 0*1* *01* 01** *10* *11* 10** 1*0* 1*1* 11**";
    assert_eq!(family(BUDDY, 4, 2), addresses(buddy));
    assert_eq!(family(GRAY, 4, 2), addresses(gray));
    assert_eq!(family(TREE, 4, 2), addresses(tree));
    let extended = family(EXTENDED, 4, 2);
    assert_eq!(extended.len(), 20);
    assert_eq!(extended[..12], addresses(tree));
    // The list (d) is two columns; document 01 orders by a, then p.
    assert_eq!(extended[12..], addresses("*0*0 **00 *0*1 **01 **10 **11 *1*0 *1*1"));
}

#[test]
fn example_17_families_of_a_5_cube() {
    let sorted = |mut members: Vec<Subcube>| {
        members.sort();
        members
    };
    let figure_10 = "00*** 0*0** *00** 01*** 0*1** *01** \
                     10*** 1*0** *10** 11*** 1*1** *11**";
    let figure_11 = "*0*0* **00* *0*1* **01* *1*0* **10* *1*1* **11* \
                     **0*0 ***00 **0*1 ***01 **1*0 ***10 **1*1 ***11";
    let extended = family(EXTENDED, 5, 3);
    assert_eq!(sorted(family(TREE, 5, 3)), sorted(addresses(figure_10)));
    assert_eq!(sorted(extended[..12].to_vec()), sorted(addresses(figure_10)));
    assert_eq!(sorted(extended[12..].to_vec()), sorted(addresses(figure_11)));
}

#[test]
fn example_15_two_faults() {
    for (one, other) in [(0, 8), (0, 9), (1, 8), (1, 9)] {
        let satisfies = |strategy| {
            let mut cube = Cube::with_good(4, |_| true);
            cube.call(&fault(one));
            cube.call(&fault(other));
            let calls = [request(1, 3, strategy), request(2, 2, strategy)];
            calls.iter().all(|frame| matches!(cube.call(frame), Got::Granted { .. }))
        };
        assert!(!satisfies(BUDDY));
        assert!(!satisfies(GRAY));
        assert!(satisfies(TREE));
    }
}

/// Document 003's map, by "4 -> 1" and so on.
fn moved(pairs: &[(usize, u8)]) -> Map {
    let mut map = [0; 10];
    for (from, to) in pairs {
        map[from - 1] = *to;
    }
    for (entry, own) in map.iter_mut().zip(1..).skip(pairs.len()) {
        *entry = own;
    }
    map
}

#[test]
fn document_003_figure_5() {
    let figure = moved(&[(4, 1), (5, 2), (1, 3), (2, 4), (3, 5), (6, 6)]);
    assert_eq!(new_map(6, [21, 29, 5]), (figure, 2));
    let mut cube = Cube::with_not_good(6, &[], &[21, 29, 5]);
    assert_eq!(cube.call(&relabel()), Got::Done(2));
    for direction in 1..=10 {
        assert_eq!(cube.direction(direction), figure[direction - 1]);
    }
    // The subcube 0**101 that holds the faulty nodes gets the labels 0101**.
    let labels: BTreeSet<u32> = [5, 13, 21, 29].map(|node| cube.label(node)).into();
    assert_eq!(labels, [20, 21, 22, 23].into());
}

#[test]
fn document_003_figure_2() {
    let figure = moved(&[(1, 2), (2, 3), (3, 1)]);
    assert_eq!(new_map(3, [0, 4]), (figure, 1));
    let mut cube = Cube::with_not_good(3, &[], &[0, 4]);
    assert_eq!(cube.call(&request(1, 2, BUDDY)), refused(14, 2));
    assert_eq!(cube.call(&relabel()), Got::Done(1));
    // Labels 4 to 7, 1** by label, are the nodes *1*.
    assert_eq!(cube.call(&request(1, 2, BUDDY)), granted(1, 2, 5, 2));
}
