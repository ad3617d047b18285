//! Document 02, (f): each node has the star bits of the grant that holds it, 0
//! if it is unheld. The outcomes are worked out by hand.

use crate::support::*;

/// These nodes carry these star bits, and the others 0.
fn carried(cube: &Cube, expected: &[(usize, u16)]) {
    for node in 0..1024 {
        let stars = expected.iter().find(|(at, _)| *at == node).map_or(0, |(_, stars)| *stars);
        assert_eq!(at(&cube.record, STARS + 2 * node), stars, "node {node}");
    }
}

/// A 3-cube, all good: job 1 holds 0 and 1, job 2 holds 2, and job 3 holds 4 to 7.
fn three_jobs() -> Cube {
    let mut cube = Cube::with_good(3, |_| true);
    assert_eq!(cube.call(&request(1, 1, BUDDY)), granted(1, 0, 1, 1));
    assert_eq!(cube.call(&request(2, 0, BUDDY)), granted(2, 2, 0, 3));
    assert_eq!(cube.call(&request(3, 2, BUDDY)), granted(3, 4, 3, 2));
    cube
}

/// What their nodes carry, but for job 2's, which carries 0.
const OF_THREE: [(usize, u16); 6] = [(0, 1), (1, 1), (4, 3), (5, 3), (6, 3), (7, 3)];

#[test]
fn the_record_ends_with_them() {
    let cube = three_jobs();
    assert_eq!(cube.record[3088..3104], [1, 0, 1, 0, 0, 0, 0, 0, 3, 0, 3, 0, 3, 0, 3, 0]);
    assert!(cube.record[3104..] == [0; 5136 - 3104]);
}

#[test]
fn an_unheld_node_has_none() {
    for n in 0..=10 {
        let nodes = 1 << n;
        for node in [0, nodes - 1, nodes, 1023].into_iter().filter(|node| *node < 1024) {
            for (byte, value) in [(0, 1), (0, 0x80), (1, 1), (1, 0x80)] {
                let mut cube = Cube::new(n);
                cube.record[STARS + 2 * node + byte] = value;
                assert_eq!(returned(&cube.record), 1, "n {n}, node {node}");
            }
        }
    }
}

#[test]
fn an_unheld_node_among_held_ones_has_none() {
    let place = STARS + 2 * 3;
    for byte in [place, place + 1] {
        let mut cube = three_jobs();
        cube.record[byte] = 1;
        assert_eq!(returned(&cube.record), 1);
    }
    let mut cube = three_jobs();
    cube.record[HOLDERS + 2 * 4] = 0; // job 3's node, unheld, its star bits left
    assert_eq!(returned(&cube.record), 1);
}

/// Either byte of a holder makes a node held.
#[test]
fn at_a_held_node_any_pass() {
    for n in 0..=10 {
        for (job, stars) in [(1, 1), (1, 0x100), (0x100, 1), (0x100, 0x100), (65535, 65535)] {
            let mut cube = Cube::new(n);
            for node in [0, (1 << n) - 1] {
                cube.hold(node, job, stars);
                assert_eq!(returned(&cube.record), 0, "n {n}, node {node}, job {job}");
            }
        }
    }
}

#[test]
fn beyond_the_cube_a_holder_does_not_help() {
    for (n, node) in [(0, 1), (3, 8), (9, 512), (9, 1023)] {
        let mut cube = Cube::new(n);
        cube.hold(node, 1, 1);
        assert_eq!(returned(&cube.record), 1);
    }
}

#[test]
fn a_grant_gives_its_own_to_each_of_its_nodes() {
    let mut cube = three_jobs();
    carried(&cube, &OF_THREE);
    assert_eq!(cube.call(&request(4, 0, TREE)), granted(4, 3, 0, 4));
    carried(&cube, &OF_THREE);
}

#[test]
fn each_strategy_gives_those_that_it_replies() {
    let four = |nodes: [usize; 4], stars| nodes.map(|node| (node, stars));
    for (strategy, silent, reply, expected) in [
        (BUDDY, 0, granted(1, 4, 3, 2), four([4, 5, 6, 7], 3)),
        (GRAY, 0, granted(1, 2, 5, 2), four([2, 3, 6, 7], 5)), // 0132, then 3267
        (TREE, 3, granted(1, 0, 5, 2), four([0, 1, 4, 5], 5)), // 0XX, then X0X
    ] {
        let mut cube = Cube::with_good(3, |node| node != silent);
        assert_eq!(cube.call(&request(1, 2, strategy)), reply);
        carried(&cube, &expected);
    }
    // Session 4.
    let mut cube = Cube::with_good(4, |node| [0, 2, 8, 10].contains(&node));
    assert_eq!(cube.call(&request(1, 2, EXTENDED)), granted(1, 0, 10, 13));
    carried(&cube, &four([0, 2, 8, 10], 10));
}

/// Nodes 0 and 4 are faulty, so that direction 1 goes to 2, 2 to 3 and 3 to 1.
/// Labels 4 to 7, whose stars are 3, are the nodes *1*.
#[test]
fn they_are_in_node_numbers() {
    let mut cube = Cube::with_not_good(3, &[], &[0, 4]);
    assert_eq!(cube.call(&relabel()), Got::Done(1));
    assert_eq!(cube.call(&request(1, 2, BUDDY)), granted(1, 2, 5, 2));
    carried(&cube, &[(2, 5), (3, 5), (6, 5), (7, 5)]);
}

/// Nodes 0 and 512 are faulty, so that direction 10 goes to 1 and each other
/// to the next. Labels 2 and 3 are the nodes 1 and 513.
#[test]
fn they_have_two_bytes() {
    let mut cube = Cube::with_not_good(10, &[], &[0, 512]);
    assert_eq!(cube.call(&relabel()), Got::Done(1));
    assert_eq!(cube.call(&request(1, 1, BUDDY)), granted(1, 1, 0x200, 2));
    carried(&cube, &[(1, 0x200), (513, 0x200)]);
    let mut cube = Cube::with_good(10, |_| true);
    assert_eq!(cube.call(&request(65535, 10, GRAY)), granted(65535, 0, 1023, 1));
    carried(&cube, &Vec::from_iter((0..1024).map(|node| (node, 1023))));
    assert_eq!(cube.call(&release(65535)), Got::Done(1024));
    carried(&cube, &[]);
}

#[test]
fn a_release_takes_its_jobs_alone() {
    let mut cube = three_jobs();
    assert_eq!(cube.call(&release(3)), Got::Done(4));
    carried(&cube, &OF_THREE[..2]);
    assert_eq!(cube.call(&release(2)), Got::Done(1));
    carried(&cube, &OF_THREE[..2]);
    assert_eq!(cube.call(&release(1)), Got::Done(2));
    carried(&cube, &[]);
}

/// Job 9's nodes are no subcube and carry what no grant gave them.
#[test]
fn a_release_takes_any() {
    let mut cube = three_jobs();
    cube.hold(1, 9, 65535);
    cube.hold(3, 9, 0);
    cube.hold(6, 9, 0x100);
    assert_eq!(cube.call(&release(9)), Got::Done(3));
    carried(&cube, &[(0, 1), (4, 3), (5, 3), (7, 3)]);
}

#[test]
fn a_growth_in_place_gives_its_own_to_the_nodes_kept() {
    let mut cube = Cube::with_good(3, |_| true);
    assert_eq!(cube.call(&request(1, 0, BUDDY)), granted(1, 0, 0, 1));
    assert_eq!(cube.call(&grow(1, 1, BUDDY)), granted(1, 0, 1, 1));
    carried(&cube, &[(0, 1), (1, 1)]);
    assert_eq!(cube.call(&grow(1, 3, BUDDY)), granted(1, 0, 7, 1));
    carried(&cube, &Vec::from_iter((0..8).map(|node| (node, 7))));
}

#[test]
fn a_growth_leaves_none_where_it_was() {
    let mut cube = three_jobs();
    assert_eq!(cube.call(&release(3)), Got::Done(4));
    assert_eq!(cube.call(&grow(1, 2, BUDDY)), granted(1, 4, 3, 2));
    carried(&cube, &OF_THREE[2..]);
}

/// The first member of dimension 2 is 0 to 3. Job 9 keeps 0 and 2, loses 5, and
/// all three carried something else.
#[test]
fn a_growth_keeps_some_nodes_and_loses_others() {
    let mut cube = Cube::with_good(3, |_| true);
    for (node, job, stars) in [(0, 9, 4), (2, 9, 65535), (5, 9, 0x100), (7, 8, 0xabcd)] {
        cube.hold(node, job, stars);
    }
    assert_eq!(cube.call(&grow(9, 2, BUDDY)), granted(9, 0, 3, 1));
    carried(&cube, &[(0, 3), (1, 3), (2, 3), (3, 3), (7, 0xabcd)]);
}

/// By the map of `they_are_in_node_numbers`: labels 2 and 3 are the nodes 1 and
/// 5, and job 1 leaves them for 2, 3, 6 and 7.
#[test]
fn a_growth_gives_node_numbers() {
    let mut cube = Cube::with_not_good(3, &[], &[0, 4]);
    assert_eq!(cube.call(&relabel()), Got::Done(1));
    assert_eq!(cube.call(&request(1, 1, BUDDY)), granted(1, 1, 4, 2));
    carried(&cube, &[(1, 4), (5, 4)]);
    assert_eq!(cube.call(&grow(1, 2, BUDDY)), granted(1, 2, 5, 2));
    carried(&cube, &[(2, 5), (3, 5), (6, 5), (7, 5)]);
}

#[test]
fn reports_leave_them() {
    let mut cube = three_jobs();
    for (node, holder) in [(0, 1), (1, 1), (2, 2), (3, 0), (7, 3)] {
        assert_eq!(cube.call(&good(node)), Got::Done(0));
        assert_eq!(cube.call(&fault(node)), Got::Done(holder));
        carried(&cube, &OF_THREE);
        assert_eq!(cube.call(&repaired(node)), Got::Done(0));
        assert_eq!(cube.call(&good(node)), Got::Done(0));
        carried(&cube, &OF_THREE);
    }
    // Faulty nodes are given back as others are.
    assert_eq!(cube.call(&fault(4)), Got::Done(3));
    assert_eq!(cube.call(&release(3)), Got::Done(4));
    carried(&cube, &OF_THREE[..2]);
}

/// A relabel is accepted only where nothing is held, so none are there.
#[test]
fn a_relabel_leaves_none() {
    let mut cube = three_jobs();
    refuses(&cube, &relabel(), 13, 0);
    for (job, nodes) in [(1, 2), (2, 1), (3, 4)] {
        assert_eq!(cube.call(&release(job)), Got::Done(nodes));
    }
    assert_eq!([fault(0), fault(4)].map(|frame| cube.call(&frame)), [Got::Done(0); 2]);
    changes(&mut cube, &relabel(), &[(5, 2), (6, 3), (7, 1)]);
    carried(&cube, &[]);
}

#[test]
fn a_refused_call_leaves_them() {
    let mut cube = three_jobs();
    cube.hold(3, 9, 0xabcd);
    assert_eq!(cube.call(&fault(2)), Got::Done(2));
    for (frame, number, tried) in [
        (good(2), 12, 0),
        (repaired(0), 12, 0),
        (fault(8), 8, 0),
        (relabel(), 13, 0),
        (request(1, 0, BUDDY), 10, 0),
        (request(4, 0, BUDDY), 14, 8),
        (request(4, 4, BUDDY), 7, 0),
        (grow(1, 1, BUDDY), 17, 0),
        (grow(1, 2, BUDDY), 14, 2),
        (grow(4, 1, BUDDY), 11, 0),
        (release(4), 11, 0),
        (release(0), 6, 0),
        (release(9)[..5].to_vec(), 3, 0),
    ] {
        refuses(&cube, &frame, number, tried);
    }
    carried(&cube, &[&OF_THREE[..], &[(3, 0xabcd)]].concat());
}

/// No call asks what they are at a held node: these are no grant's.
#[test]
fn no_verdict_reads_them() {
    let mut cube = three_jobs();
    for (node, job) in [(0, 1), (1, 1), (2, 2), (4, 3), (5, 3), (6, 3), (7, 3)] {
        cube.hold(node, job, 0xffff ^ node as u16);
    }
    assert_eq!(cube.call(&fault(1)), Got::Done(1));
    assert_eq!(cube.call(&request(4, 0, GRAY)), granted(4, 3, 0, 3)); // 0, 1, 3
    assert_eq!(cube.call(&grow(3, 1, BUDDY)), refused(17, 0));
    assert_eq!(cube.call(&grow(2, 1, BUDDY)), refused(14, 4));
    assert_eq!(cube.call(&release(3)), Got::Done(4));
    assert_eq!(cube.call(&grow(2, 1, BUDDY)), granted(2, 4, 1, 3));
    carried(&cube, &[(0, 0xffff), (1, 0xfffe), (4, 1), (5, 1)]);
}
