//! Document 01, "Six calls and their frames": effects and reply bytes.

use cube_reference::call;

use crate::support::*;

/// The reply's bytes in a buffer of this size; the rest keeps its values.
fn replies(cube: &mut Cube, frame: &[u8], size: usize, expected: &[u8]) {
    let mut reply = vec![0xcc; size];
    assert_eq!(call(&mut cube.record, frame, &mut reply), 0);
    assert_eq!(reply[..expected.len()], *expected);
    assert!(reply[expected.len()..].iter().all(|byte| *byte == 0xcc));
}

#[test]
fn reply_bytes_by_kind() {
    for size in [12, 13, 40] {
        let mut cube = Cube::with_good(10, |_| true);
        replies(&mut cube, &good(0), size, &[6, 0, 0x03, 0x80, 0, 0]);
        replies(&mut cube, &fault(1), size, &[6, 0, 0x03, 0x80, 0, 0]);
        replies(&mut cube, &fault(3), size, &[6, 0, 0x03, 0x80, 0, 0]);
        replies(&mut cube, &fault(5), size, &[6, 0, 0x03, 0x80, 0, 0]);
        // 1, 3 and 5 differ in directions 2 and 3.
        replies(&mut cube, &relabel(), size, &[6, 0, 0x03, 0x80, 2, 0]);
        // Labels below 512 hold the faulty nodes; those from 512 up are free.
        let grant = [12, 0, 0x01, 0x80, 0xff, 0xff, 0, 2, 0xff, 1, 2, 0];
        replies(&mut cube, &request(65535, 9, BUDDY), size, &grant);
        replies(&mut cube, &fault(1023), size, &[6, 0, 0x03, 0x80, 0xff, 0xff]);
        replies(&mut cube, &release(65535), size, &[6, 0, 0x03, 0x80, 0, 2]);
    }
}

#[test]
fn reports_set_one_condition() {
    let mut cube = Cube::new(3);
    let at_5 = CONDITIONS + 5;
    changes(&mut cube, &good(5), &[(at_5, 1)]);
    changes(&mut cube, &good(5), &[]);
    changes(&mut cube, &fault(5), &[(at_5, 2)]);
    changes(&mut cube, &fault(5), &[]);
    changes(&mut cube, &repaired(5), &[(at_5, 0)]);
    changes(&mut cube, &fault(5), &[(at_5, 2)]);
    changes(&mut cube, &fault(0), &[(CONDITIONS, 2)]);
}

#[test]
fn a_grant_and_a_release_set_holders_and_star_bits() {
    let mut cube = Cube::with_good(3, |_| true);
    // The tree's first member at k 2 is 0XX, nodes 0 to 3.
    let four = |part: usize, bytes: [u8; 2]| {
        (part..part + 8).map(move |i| (i, bytes[i % 2])).collect::<Vec<(usize, u8)>>()
    };
    let held = [four(HOLDERS, [0x34, 0x12]), four(STARS, [3, 0])].concat();
    changes(&mut cube, &request(0x1234, 2, TREE), &held);
    let unheld = [four(HOLDERS, [0, 0]), four(STARS, [0, 0])].concat();
    changes(&mut cube, &release(0x1234), &unheld);
}

/// Jobs that share a byte with no job, or with each other, are told apart.
#[test]
fn both_bytes_of_a_job_count() {
    let mut cube = Cube::with_good(3, |_| true);
    for (job, node) in [256, 255, 257, 1, 65535].into_iter().zip(0..) {
        assert_eq!(cube.call(&request(job, 0, TREE)), granted(job, node, 0, node + 1));
    }
    assert_eq!(cube.call(&relabel()), refused(13, 0));
    assert_eq!(cube.call(&release(257)), Got::Done(1));
    assert_eq!(cube.held_by(1), [3]);
    assert_eq!(cube.call(&request(512, 0, BUDDY)), granted(512, 2, 0, 3));
    for job in [1, 255, 65535, 512] {
        assert_eq!(cube.call(&release(job)), Got::Done(1));
    }
    assert_eq!(cube.call(&relabel()), refused(13, 0));
    assert_eq!(cube.call(&release(256)), Got::Done(1));
    assert_eq!(cube.call(&relabel()), Got::Done(0));
}

#[test]
fn one_job_may_hold_all_1024_nodes() {
    for strategy in 0..=4 {
        let mut cube = Cube::with_good(10, |_| true);
        assert_eq!(cube.call(&request(65535, 10, strategy)), granted(65535, 0, 1023, 1));
        assert_eq!(cube.held_by(65535).len(), 1024);
        assert_eq!(cube.call(&release(65535)), Got::Done(1024));
    }
}

#[test]
fn a_fault_replies_the_holder_and_leaves_it() {
    let mut cube = Cube::with_good(2, |_| true);
    assert_eq!(cube.call(&request(300, 1, BUDDY)), granted(300, 0, 1, 1));
    changes(&mut cube, &fault(1), &[(CONDITIONS + 1, 2)]);
    assert_eq!(cube.call(&fault(1)), Got::Done(300));
    assert_eq!(cube.call(&fault(2)), Got::Done(0));
    assert_eq!(cube.held_by(300), [0, 1]);
    assert_eq!(cube.call(&release(300)), Got::Done(2));
    assert_eq!(cube.call(&fault(1)), Got::Done(0));
}

#[test]
fn a_repaired_node_is_not_free_until_good() {
    let mut cube = Cube::with_good(0, |_| true);
    let calls = [fault(0), repaired(0)];
    assert!(calls.iter().all(|frame| cube.call(frame) == Got::Done(0)));
    assert_eq!(cube.call(&request(1, 0, GRAY)), refused(14, 1));
    assert_eq!(cube.call(&good(0)), Got::Done(0));
    assert_eq!(cube.call(&request(1, 0, GRAY)), granted(1, 0, 0, 1));
}

#[test]
fn relabel_replies_the_size_of_d() {
    let cases: [(u32, &[u16], u16, [u8; 4]); 6] = [
        (4, &[], 0, [1, 2, 3, 4]),
        (4, &[9], 0, [1, 2, 3, 4]),
        (4, &[0, 15], 4, [1, 2, 3, 4]),
        (4, &[1, 2, 4], 3, [1, 2, 3, 4]),
        (4, &[3, 11], 1, [2, 3, 4, 1]),
        (4, &[6, 12], 2, [3, 1, 4, 2]),
    ];
    for (n, faulty, size, map) in cases {
        let mut cube = Cube::with_not_good(n, &[], faulty);
        let bytes: Vec<(usize, u8)> = (5..).zip(map).collect();
        changes(&mut cube, &relabel(), &bytes);
        assert_eq!(cube.call(&relabel()), Got::Done(size));
    }
}

#[test]
fn an_identity_relabel_undoes_the_last() {
    let mut cube = Cube::with_not_good(3, &[], &[0, 4]);
    changes(&mut cube, &relabel(), &[(5, 2), (6, 3), (7, 1)]);
    assert_eq!(cube.call(&fault(3)), Got::Done(0));
    changes(&mut cube, &relabel(), &[(5, 1), (6, 2), (7, 3)]);
    assert_eq!(cube.call(&relabel()), Got::Done(3));
}
