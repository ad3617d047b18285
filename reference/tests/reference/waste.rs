//! Document 02, (n), without one of its conditions: a request is refused though
//! its size is at most the count of free nodes. The outcomes are worked out by
//! hand.

use cube_reference::load;

use crate::support::*;

/// The nodes that are good and unheld, by the record's bytes.
fn free(cube: &Cube) -> Vec<usize> {
    let is_unheld = |node: &usize| at(&cube.record, HOLDERS + 2 * node) == 0;
    (0..1024).filter(|node| cube.record[CONDITIONS + node] == 1).filter(is_unheld).collect()
}

/// Just these nodes are free, enough of them for k; still k is refused 14.
fn wastes(cube: &Cube, nodes: &[usize], frame: &[u8], tried: u16) {
    assert_eq!(free(cube), nodes);
    assert!(1 << frame[6] <= nodes.len());
    refuses(cube, frame, 14, tried);
}

/// Nodes 1 and 2 are left, which differ in both directions. Those that aren't good
/// differ so too, and a relabel leaves each direction where it is.
#[test]
fn two_dead_nodes() {
    for (silent, faulty) in [(&[0, 3][..], &[][..]), (&[0], &[3]), (&[3], &[0]), (&[], &[0, 3])] {
        let mut cube = Cube::with_not_good(2, silent, faulty);
        wastes(&cube, &[1, 2], &request(1, 1, BEST_FIT), 2);
        assert_eq!(cube.call(&relabel()), Got::Done(2));
        wastes(&cube, &[1, 2], &request(1, 1, BEST_FIT), 2);
        assert_eq!(cube.call(&request(2, 0, BEST_FIT)), granted(2, 1, 0, 2));
        assert_eq!(cube.call(&request(3, 0, BEST_FIT)), granted(3, 2, 0, 1));
    }
}

/// Row 6 of the sessions. Buddy takes the pair from 0 to 3 and leaves no four;
/// best fit takes 6 and 7.
#[test]
fn first_fit() {
    let mut cube = Cube::with_not_good(3, &[], &[4]);
    assert_eq!(cube.call(&request(1, 1, BUDDY)), granted(1, 0, 1, 1));
    wastes(&cube, &[2, 3, 5, 6, 7], &request(2, 2, BUDDY), 2);
    let mut cube = Cube::with_not_good(3, &[], &[4]);
    assert_eq!(cube.call(&request(1, 1, BEST_FIT)), granted(1, 6, 1, 3));
    assert_eq!(free(&cube), [0, 1, 2, 3, 5]);
    assert_eq!(cube.call(&request(2, 2, BEST_FIT)), granted(2, 0, 3, 2));
}

/// Each job has a node; the maximal free blocks are 0 to 3; 1, and 2 and 3; 2 and
/// 3; 3. Then 0 and 3 are given back, or 1 and 2, neither of them a pair.
#[test]
fn a_release_between() {
    for (jobs, nodes) in [([1, 4], [0, 3]), ([2, 3], [1, 2])] {
        let mut cube = Cube::with_good(2, |_| true);
        for (job, tried) in [(1, 1), (2, 2), (3, 1), (4, 1)] {
            assert_eq!(cube.call(&request(job, 0, BEST_FIT)), granted(job, job - 1, 0, tried));
        }
        refuses(&cube, &request(5, 0, BEST_FIT), 14, 0);
        for job in jobs {
            assert_eq!(cube.call(&release(job)), Got::Done(1));
        }
        wastes(&cube, &nodes, &request(5, 1, BEST_FIT), 2);
    }
}

/// Node 0 is held when node 3 fails, which leaves 1 and 2.
#[test]
fn a_report_between() {
    let mut cube = Cube::with_good(2, |_| true);
    assert_eq!(cube.call(&request(1, 0, BEST_FIT)), granted(1, 0, 0, 1));
    assert_eq!(cube.call(&fault(3)), Got::Done(0));
    wastes(&cube, &[1, 2], &request(2, 1, BEST_FIT), 2);
}

/// Jobs 1 to 5 have a node each, 0 to 4. To job 1 the blocks are then 0, 5, and 6
/// and 7; it takes the pair and leaves 0.
#[test]
fn a_growth_between() {
    let mut cube = Cube::with_good(3, |_| true);
    for (job, tried) in [(1, 1), (2, 3), (3, 2), (4, 2), (5, 1)] {
        assert_eq!(cube.call(&request(job, 0, BEST_FIT)), granted(job, job - 1, 0, tried));
    }
    assert_eq!(free(&cube), [5, 6, 7]);
    assert_eq!(cube.call(&grow(1, 1, BEST_FIT)), granted(1, 6, 1, 3));
    wastes(&cube, &[0, 5], &request(6, 1, BEST_FIT), 2);
}

/// The job's second request is refused 10; another job gets what it asked for.
#[test]
fn a_job_that_asks_again() {
    let mut cube = Cube::with_good(1, |_| true);
    assert_eq!(cube.call(&request(1, 0, BEST_FIT)), granted(1, 0, 0, 1));
    assert_eq!(free(&cube), [1]);
    refuses(&cube, &request(1, 0, BEST_FIT), 10, 0);
    assert_eq!(cube.call(&request(2, 0, BEST_FIT)), granted(2, 1, 0, 1));
}

/// The record loads: jobs 7 and 8 hold a node each, 0 and 3.
#[test]
fn a_start_with_nodes_held() {
    let mut cube = Cube::with_good(2, |_| true);
    cube.hold(0, 7, 0);
    cube.hold(3, 8, 0);
    assert_eq!(load(&cube.record), 0);
    wastes(&cube, &[1, 2], &request(1, 1, BEST_FIT), 2);
    assert_eq!(cube.call(&request(1, 0, BEST_FIT)), granted(1, 1, 0, 2));
}
