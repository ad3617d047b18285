//! Document 02, (b): D is taken over all nodes that aren't good, silent ones
//! as well as faulty ones.

use cube_reference::relabel as new_map;

use crate::support::*;

/// Relabels the cube, whose D is of this size; gives the map up to n.
fn relabelled(cube: &mut Cube, size: u16) -> Vec<u8> {
    assert_eq!(cube.call(&relabel()), Got::Done(size));
    let n = cube.record[4];
    for i in n + 1..=10 {
        assert_eq!(cube.direction(i.into()), i);
    }
    (1..=n).map(|i| cube.direction(i.into())).collect()
}

fn identity(n: u32) -> Vec<u8> {
    (1..=n as u8).collect()
}

#[test]
fn a_fresh_cube_is_all_silent() {
    for n in 0..=10 {
        assert_eq!(relabelled(&mut Cube::new(n), n as u16), identity(n));
    }
}

/// The record has condition 0 from 2^n up, where there are no nodes.
#[test]
fn an_empty_d() {
    for n in 0..=10 {
        assert_eq!(relabelled(&mut Cube::with_not_good(n, &[], &[]), 0), identity(n));
        let last = (1 << n) - 1;
        for node in [0, last / 2, last] {
            assert_eq!(relabelled(&mut Cube::with_not_good(n, &[node], &[]), 0), identity(n));
            assert_eq!(relabelled(&mut Cube::with_not_good(n, &[], &[node]), 0), identity(n));
        }
    }
}

#[test]
fn silent_and_faulty_nodes_count_alike() {
    let cases: [(u32, &[u16], &[u8]); 9] = [
        (1, &[0, 1], &[1]),
        (2, &[1, 3], &[2, 1]),
        (3, &[0, 4], &[2, 3, 1]),
        (3, &[0, 7], &[1, 2, 3]),
        (4, &[6, 12], &[3, 1, 4, 2]),
        (6, &[21, 29, 5], &[3, 4, 5, 1, 2, 6]), // document 003, figure 5
        (10, &[0, 512], &[2, 3, 4, 5, 6, 7, 8, 9, 10, 1]),
        (10, &[0, 1023], &[1, 2, 3, 4, 5, 6, 7, 8, 9, 10]),
        (10, &[1, 5, 65, 69], &[3, 4, 1, 5, 6, 7, 2, 8, 9, 10]),
    ];
    let sizes = [1, 1, 1, 3, 2, 2, 1, 10, 2];
    for ((n, nodes, map), size) in cases.into_iter().zip(sizes) {
        for silent in 0..=nodes.len() {
            let (silent, faulty) = nodes.split_at(silent);
            let mut cube = Cube::with_not_good(n, silent, faulty);
            assert_eq!(relabelled(&mut cube, size), map, "silent {silent:?}, faulty {faulty:?}");
        }
    }
}

#[test]
fn d_shrinks_as_nodes_report_good() {
    let mut cube = Cube::new(3);
    for (node, size) in (0..8).zip([3, 3, 3, 2, 2, 1, 0, 0]) {
        assert_eq!(cube.call(&good(node)), Got::Done(0));
        relabelled(&mut cube, size);
    }
}

#[test]
fn a_repaired_node_is_in_d_until_good() {
    let mut cube = Cube::with_not_good(3, &[], &[0, 4]);
    assert_eq!(relabelled(&mut cube, 1), [2, 3, 1]);
    assert_eq!(cube.call(&repaired(4)), Got::Done(0));
    assert_eq!(relabelled(&mut cube, 1), [2, 3, 1]);
    assert_eq!(cube.call(&good(4)), Got::Done(0));
    assert_eq!(relabelled(&mut cube, 0), [1, 2, 3]);
}

/// 0110 is silent, 1100 and 1110 are faulty: D is 2 and 4, and the labels of
/// these nodes are 9, 10 and 11. By the faulty ones alone D would be 2.
#[test]
fn grants_are_by_the_new_d() {
    let mut cube = Cube::with_not_good(4, &[6], &[12, 14]);
    let mut other = Cube::with_not_good(4, &[6], &[12, 14]);
    other.record[5..15].copy_from_slice(&new_map(4, [12, 14]).0);
    assert_eq!(other.call(&request(1, 3, BUDDY)), refused(14, 2));
    assert_eq!(relabelled(&mut cube, 2), [3, 1, 4, 2]);
    assert_eq!([6, 12, 14].map(|node| cube.label(node)), [9, 10, 11]);
    assert_eq!(cube.call(&request(1, 3, BUDDY)), granted(1, 0, 11, 1)); // *0**
    assert_eq!(cube.call(&request(2, 2, BUDDY)), granted(2, 5, 10, 4)); // *1*1
    assert_eq!(cube.call(&request(3, 0, BUDDY)), granted(3, 4, 0, 9));
    assert_eq!(cube.call(&request(4, 0, BUDDY)), refused(14, 16));
}

/// Figure 2 of document 003 with one of its two faulty nodes silent.
#[test]
fn a_silent_node_alone_with_a_faulty_one_makes_d() {
    for (silent, faulty) in [(0, 4), (4, 0)] {
        let mut cube = Cube::with_not_good(3, &[silent], &[faulty]);
        assert_eq!(cube.call(&request(1, 2, BUDDY)), refused(14, 2));
        assert_eq!(relabelled(&mut cube, 1), [2, 3, 1]);
        assert_eq!(cube.call(&request(1, 2, BUDDY)), granted(1, 2, 5, 2));
    }
}
