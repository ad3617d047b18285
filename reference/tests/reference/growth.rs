//! Document 02, (e): a job that grows. The outcomes are worked out by hand.

use crate::support::*;

/// A 3-cube, all good, with 0 and 1 held by job 1, 2 and 3 by job 2.
fn two_jobs() -> Cube {
    let mut cube = Cube::with_good(3, |_| true);
    assert_eq!(cube.call(&request(1, 1, BUDDY)), granted(1, 0, 1, 1));
    assert_eq!(cube.call(&request(2, 1, BUDDY)), granted(2, 2, 1, 2));
    cube
}

/// A cube, all good but for these faulty nodes, with these nodes held by job 1.
fn holding(n: u32, nodes: &[u16], faulty: &[u16]) -> Cube {
    let mut cube = Cube::with_not_good(n, &[], faulty);
    for node in nodes {
        cube.hold((*node).into(), 1, 0);
    }
    cube
}

#[test]
fn a_job_grows_in_place() {
    for strategy in 0..=4 {
        let mut cube = Cube::with_good(10, |_| true);
        assert_eq!(cube.call(&request(65535, 0, strategy)), granted(65535, 0, 0, 1));
        for k in 1..=10 {
            let stars = (1 << k) - 1;
            assert_eq!(cube.call(&grow(65535, k, strategy)), granted(65535, 0, stars, 1));
            assert_eq!(cube.held_by(65535), Vec::from_iter(0..=stars));
        }
        refuses(&cube, &grow(65535, 10, strategy), 17, 0);
        assert_eq!(cube.call(&release(65535)), Got::Done(1024));
    }
}

/// Buddy's second member is 4 to 7. Gray's are 0132, 3267, 6754 and 5401.
#[test]
fn a_job_moves_where_its_neighbours_are_held() {
    for (strategy, tried) in [(BUDDY, 2), (GRAY, 3)] {
        let mut cube = two_jobs();
        assert_eq!(cube.call(&grow(1, 2, strategy)), granted(1, 4, 3, tried));
        assert_eq!(cube.held_by(1), [4, 5, 6, 7]);
        assert_eq!(cube.held_by(2), [2, 3]);
        assert_eq!(cube.call(&request(3, 1, BUDDY)), granted(3, 0, 1, 1));
        assert_eq!(cube.call(&release(1)), Got::Done(4));
    }
}

/// The second member is X0X: 0, 1, 4 and 5.
#[test]
fn tree_and_extended_keep_what_the_others_lose() {
    for strategy in [TREE, EXTENDED] {
        let mut cube = two_jobs();
        assert_eq!(cube.call(&grow(1, 2, strategy)), granted(1, 0, 5, 2));
        assert_eq!(cube.held_by(1), [0, 1, 4, 5]);
        assert_eq!(cube.held_by(2), [2, 3]);
    }
}

#[test]
fn some_nodes_are_kept_and_others_lost() {
    let mut cube = holding(3, &[0, 4], &[]);
    assert_eq!(cube.call(&grow(1, 2, BUDDY)), granted(1, 0, 3, 1));
    assert_eq!(cube.held_by(1), [0, 1, 2, 3]);
    let mut cube = holding(3, &[1, 2, 4], &[]);
    assert_eq!(cube.call(&grow(1, 2, BUDDY)), granted(1, 0, 3, 1));
    assert_eq!(cube.held_by(1), [0, 1, 2, 3]);
}

/// The first member is taken even if a later one has the job's nodes.
#[test]
fn the_first_member_need_not_have_a_node_of_the_job() {
    let mut cube = holding(3, &[6], &[]);
    assert_eq!(cube.call(&grow(1, 1, BUDDY)), granted(1, 0, 1, 1));
    assert_eq!(cube.held_by(1), [0, 1]);
    let mut cube = holding(3, &[6], &[0]);
    assert_eq!(cube.call(&grow(1, 1, GRAY)), granted(1, 1, 2, 2)); // 01, then 13
    assert_eq!(cube.held_by(1), [1, 3]);
}

#[test]
fn the_record_changes_in_holders_and_star_bits_alone() {
    let mut cube = two_jobs();
    assert_eq!(cube.call(&fault(1)), Got::Done(1));
    let mut expected = Cube { record: cube.record.clone() };
    (0..2).for_each(|node| expected.hold(node, 0, 0));
    (4..8).for_each(|node| expected.hold(node, 1, 3));
    assert_eq!(cube.call(&grow(1, 2, BUDDY)), granted(1, 4, 3, 2));
    assert!(cube.record == expected.record);
    assert_eq!(cube.call(&repaired(1)), Got::Done(0)); // still faulty, unheld now
}

#[test]
fn a_node_of_another_job_is_not_free() {
    let mut cube = two_jobs();
    refuses(&cube, &grow(1, 3, BUDDY), 14, 1);
    refuses(&cube, &grow(2, 3, EXTENDED), 14, 1);
    assert_eq!(cube.call(&grow(2, 2, TREE)), granted(2, 2, 5, 3)); // X1X
    assert_eq!(cube.call(&grow(1, 2, TREE)), granted(1, 0, 5, 2));
    for strategy in 0..=3 {
        refuses(&cube, &grow(1, 3, strategy), 14, 1);
    }
    assert_eq!(cube.call(&release(2)), Got::Done(4));
    assert_eq!(cube.call(&grow(1, 3, GRAY)), granted(1, 0, 7, 1));
}

/// Job 1 shares a byte with 257, and 257 and 256 one with each other.
#[test]
fn both_bytes_of_a_holder_count() {
    let mut cube = Cube::with_good(3, |_| true);
    for (job, node) in [257, 1, 256].into_iter().zip(0..) {
        assert_eq!(cube.call(&request(job, 0, BUDDY)), granted(job, node, 0, node + 1));
    }
    assert_eq!(cube.call(&grow(1, 1, BUDDY)), granted(1, 4, 1, 3));
    assert_eq!(cube.call(&grow(256, 1, BUDDY)), granted(256, 2, 1, 2));
    assert_eq!(cube.call(&grow(257, 1, BUDDY)), granted(257, 0, 1, 1));
    assert_eq!(cube.call(&grow(257, 2, BUDDY)), refused(14, 2));
}

/// Faulty, and after 'repaired' unconfirmed, the job's own node is neither.
#[test]
fn an_own_node_is_free_only_if_good() {
    let mut cube = holding(2, &[0], &[]);
    for (report, holder) in [(fault(0), 1), (repaired(0), 0)] {
        assert_eq!(cube.call(&report), Got::Done(holder));
        refuses(&cube, &grow(1, 2, BUDDY), 14, 1);
        let mut moved = Cube { record: cube.record.clone() };
        assert_eq!(moved.call(&grow(1, 1, BUDDY)), granted(1, 2, 1, 2));
        assert_eq!(moved.held_by(1), [2, 3]);
    }
    assert_eq!(cube.call(&good(0)), Got::Done(0));
    assert_eq!(cube.call(&grow(1, 1, BUDDY)), granted(1, 0, 1, 1));
    assert_eq!(cube.call(&grow(1, 2, BUDDY)), granted(1, 0, 3, 1));
}

#[test]
fn a_fault_may_leave_no_member() {
    let mut cube = two_jobs();
    assert_eq!(cube.call(&fault(0)), Got::Done(1));
    assert_eq!(cube.call(&fault(6)), Got::Done(0));
    for (strategy, count) in [(BUDDY, 2), (GRAY, 4), (TREE, 4), (EXTENDED, 6)] {
        refuses(&cube, &grow(1, 2, strategy), 14, count);
    }
}

#[test]
fn cause_11_the_job_holds_none() {
    let mut cube = two_jobs();
    for k in 0..=3 {
        refuses(&cube, &grow(3, k, BUDDY), 11, 0);
        refuses(&cube, &grow(65535, k, TREE), 11, 0);
    }
    assert_eq!(cube.call(&release(1)), Got::Done(2));
    refuses(&cube, &grow(1, 2, BUDDY), 11, 0);
    refuses(&Cube::new(0), &grow(1, 0, BUDDY), 11, 0);
}

#[test]
fn cause_17_not_more_than_the_nodes_held() {
    for strategy in 0..=4 {
        for k in 0..=1 {
            refuses(&two_jobs(), &grow(1, k, strategy), 17, 0);
        }
    }
    let cube = holding(3, &[1, 2, 4], &[]);
    refuses(&cube, &grow(1, 0, BUDDY), 17, 0);
    refuses(&cube, &grow(1, 1, BUDDY), 17, 0);
    let cube = holding(3, &[0, 3, 5, 6, 7], &[]);
    refuses(&cube, &grow(1, 2, BUDDY), 17, 0);
    refuses(&holding(0, &[0], &[]), &grow(1, 0, BUDDY), 17, 0);
}

/// Both nodes of job 1 are faulty; it holds them all the same.
#[test]
fn cause_17_counts_nodes_that_are_not_good() {
    let mut cube = two_jobs();
    for node in [0, 1] {
        assert_eq!(cube.call(&fault(node)), Got::Done(1));
    }
    refuses(&cube, &grow(1, 0, BUDDY), 17, 0);
    refuses(&cube, &grow(1, 1, BUDDY), 17, 0);
    assert_eq!(cube.call(&repaired(1)), Got::Done(0));
    refuses(&cube, &grow(1, 1, BUDDY), 17, 0);
    assert_eq!(cube.call(&grow(1, 2, BUDDY)), granted(1, 4, 3, 2));
    assert!(cube.held_by(1) == [4, 5, 6, 7]);
    assert_eq!(cube.call(&fault(0)), Got::Done(0)); // lost
}

/// 10 isn't checked: the growths above are by jobs that hold nodes. 11 and 17
/// are never met together, nor 7 and 17.
#[test]
fn the_first_cause_answers() {
    let cube = two_jobs();
    let cut = grow(0, 9, 9);
    refuses(&cube, &cut[..7], 3, 0); // 3 and 5 to 9
    refuses(&cube, &frame(0x0204, &[0, 0, 9, 9, 9]), 5, 0); // 5 and 6, 7, 9
    refuses(&cube, &frame(0x0204, &[3, 0]), 5, 0); // 5 and 11
    refuses(&cube, &grow(0, 4, 5), 6, 0); // 6, 7 and 9
    refuses(&cube, &grow(0, 4, BUDDY), 6, 0); // 6 and 7
    refuses(&cube, &grow(0, 2, 5), 6, 0); // 6 and 9
    refuses(&holding(2, &[0, 1, 2, 3], &[]), &grow(0, 2, BUDDY), 6, 0); // 6 and 11
    refuses(&cube, &grow(0, 0, BUDDY), 6, 0); // 6; four nodes are unheld
    refuses(&cube, &grow(0, 3, BUDDY), 6, 0); // 6 and 14
    refuses(&cube, &grow(1, 4, 5), 7, 0); // 7 and 9
    refuses(&cube, &grow(3, 4, BUDDY), 7, 0); // 7 and 11
    refuses(&cube, &grow(1, 255, BUDDY), 7, 0);
    refuses(&cube, &grow(3, 2, 5), 9, 0); // 9 and 11
    refuses(&cube, &grow(1, 1, 5), 9, 0); // 9 and 17
    refuses(&cube, &grow(1, 3, 255), 9, 0); // 9 and 14
    refuses(&cube, &grow(3, 3, BUDDY), 11, 0); // 11 and 14
    refuses(&holding(1, &[0, 1], &[0]), &grow(1, 1, BUDDY), 17, 0); // 17 and 14
    refuses(&holding(1, &[0], &[0, 1]), &grow(1, 0, BUDDY), 17, 0); // 17 and 14
}

/// Nodes 0 and 4 are faulty, so that direction 1 goes to 2, 2 to 3 and 3 to 1:
/// labels 0 to 7 are the nodes 0, 4, 1, 5, 2, 6, 3, 7.
#[test]
fn growths_are_by_label_and_in_node_numbers() {
    let mut cube = Cube::with_not_good(3, &[], &[0, 4]);
    assert_eq!(cube.call(&relabel()), Got::Done(1));
    assert_eq!(cube.call(&request(1, 0, BUDDY)), granted(1, 1, 0, 3));
    assert_eq!(cube.call(&grow(1, 1, BUDDY)), granted(1, 1, 4, 2));
    assert_eq!(cube.held_by(1), [1, 5]);
    let mut other = Cube { record: cube.record.clone() };
    assert_eq!(other.call(&request(2, 0, BUDDY)), granted(2, 2, 0, 5));
    refuses(&other, &grow(1, 2, BUDDY), 14, 2);
    // The labels *1*: nodes **1, lowest 1.
    assert_eq!(other.call(&grow(1, 2, TREE)), granted(1, 1, 6, 3));
    assert_eq!(other.held_by(1), [1, 3, 5, 7]);
    assert_eq!(cube.call(&grow(1, 2, BUDDY)), granted(1, 2, 5, 2));
    assert_eq!(cube.held_by(1), [2, 3, 6, 7]);
    refuses(&cube, &grow(1, 3, BUDDY), 14, 1);
}

/// The whole machine may be one job's and grow no further.
#[test]
fn at_n_0_no_job_grows() {
    let mut cube = Cube::with_good(0, |_| true);
    for strategy in 0..=4 {
        refuses(&cube, &grow(1, 0, strategy), 11, 0);
        assert_eq!(cube.call(&request(1, 0, strategy)), granted(1, 0, 0, 1));
        refuses(&cube, &grow(1, 0, strategy), 17, 0);
        refuses(&cube, &grow(1, 1, strategy), 7, 0);
        assert_eq!(cube.call(&release(1)), Got::Done(1));
    }
}
