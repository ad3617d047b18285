//! Document 01, "When a call says no": each cause, and causes that are met at
//! once, where the first in the table's order answers.

use cube_reference::call;

use crate::support::*;

/// A 4-cube: 0 and 1 held by job 7, 2 faulty, 3 unconfirmed, the others good.
fn busy() -> Cube {
    let mut cube = Cube::with_good(4, |node| node != 2 && node != 3);
    assert_eq!(cube.call(&fault(2)), Got::Done(0));
    assert_eq!(cube.call(&request(7, 1, BUDDY)), granted(7, 0, 1, 1));
    cube
}

fn each_kind() -> [Vec<u8>; 7] {
    let (ask, more) = (request(1, 0, BUDDY), grow(7, 2, BUDDY));
    [good(4), fault(4), repaired(2), relabel(), ask, release(7), more]
}

#[test]
fn cause_2_reply_under_12_bytes() {
    for frame in each_kind() {
        for length in [0, 6, 8, 11] {
            let cube = busy();
            let mut record = cube.record.clone();
            let mut reply = vec![0xcc; length];
            assert_eq!(call(&mut record, &frame, &mut reply), 2);
            assert_eq!(reply, vec![0xcc; length]);
            assert!(record == cube.record);
        }
    }
}

#[test]
fn cause_3_length() {
    let cube = busy();
    for frame in [&[][..], &[4], &[4, 0], &[3, 0, 3]] {
        refuses(&cube, frame, 3, 0);
    }
    for frame in each_kind() {
        refuses(&cube, &frame[..frame.len() - 1], 3, 0);
        refuses(&cube, &[&frame[..], &[0]].concat(), 3, 0);
        let mut longer = frame.clone();
        longer[1] = 1;
        refuses(&cube, &longer, 3, 0);
    }
}

#[test]
fn cause_4_kind() {
    let cube = busy();
    for kind in [0, 1, 0x0100, 0x0104, 0x0200, 0x0205, 0x0301, 0x8001, 0x8002, 0x8003, 0xffff] {
        for size in [0, 2, 4] {
            refuses(&cube, &frame(kind, &[0; 4][..size]), 4, 0);
        }
    }
}

#[test]
fn cause_5_size() {
    let cube = busy();
    for right in each_kind() {
        let kind = at(&right, 2);
        for size in (4..20).filter(|size| *size != right.len()) {
            refuses(&cube, &frame(kind, &[1; 16][..size - 4]), 5, 0);
        }
    }
}

#[test]
fn cause_6_job_0() {
    let cube = busy();
    refuses(&cube, &request(0, 0, BUDDY), 6, 0);
    refuses(&cube, &release(0), 6, 0);
    refuses(&cube, &grow(0, 2, BUDDY), 6, 0);
}

#[test]
fn cause_7_dimension() {
    for n in 0..=10 {
        let mut cube = Cube::with_good(n, |_| true);
        for strategy in 0..=4 {
            refuses(&cube, &request(1, n as u8 + 1, strategy), 7, 0);
            refuses(&cube, &request(1, 255, strategy), 7, 0);
        }
        let all = (1u16 << n) - 1;
        assert_eq!(cube.call(&request(1, n as u8, BUDDY)), granted(1, 0, all, 1));
    }
}

#[test]
fn cause_8_node() {
    for n in 0..=10 {
        let mut cube = Cube::new(n);
        for node in [1 << n, 65535] {
            refuses(&cube, &good(node), 8, 0);
            refuses(&cube, &fault(node), 8, 0);
            refuses(&cube, &repaired(node), 8, 0);
        }
        let last = (1u16 << n) - 1;
        for frame in [good(last), fault(last), repaired(last)] {
            assert_eq!(cube.call(&frame), Got::Done(0));
        }
    }
}

#[test]
fn cause_9_strategy() {
    for strategy in [5, 6, 255] {
        refuses(&busy(), &request(1, 0, strategy), 9, 0);
        refuses(&busy(), &grow(7, 2, strategy), 9, 0);
    }
    for strategy in 0..=4 {
        assert!(matches!(busy().call(&request(1, 0, strategy)), Got::Granted { .. }));
        assert!(matches!(busy().call(&grow(7, 2, strategy)), Got::Granted { .. }));
    }
}

#[test]
fn causes_10_and_11_holding() {
    let mut cube = busy();
    refuses(&cube, &request(7, 0, BUDDY), 10, 0);
    refuses(&cube, &release(8), 11, 0);
    refuses(&cube, &release(65535), 11, 0);
    assert_eq!(cube.call(&release(7)), Got::Done(2));
    refuses(&cube, &release(7), 11, 0);
}

#[test]
fn cause_12_condition() {
    let cube = busy();
    refuses(&cube, &good(2), 12, 0);
    for node in [0, 3, 4] {
        refuses(&cube, &repaired(node), 12, 0); // held, unconfirmed, good
    }
}

#[test]
fn cause_13_relabel_while_held() {
    let mut cube = busy();
    refuses(&cube, &relabel(), 13, 0);
    assert_eq!(cube.call(&release(7)), Got::Done(2));
    assert_eq!(cube.call(&relabel()), Got::Done(1)); // 2 and 3 differ in direction 1
}

/// 0 to 4 and 8 aren't free, and each of the eight 3-cubes has one of them.
#[test]
fn cause_14_none_free() {
    let mut cube = busy();
    assert_eq!(cube.call(&fault(4)), Got::Done(0));
    assert_eq!(cube.call(&fault(8)), Got::Done(0));
    for (strategy, count) in [(BUDDY, 2), (GRAY, 4), (TREE, 4), (EXTENDED, 8)] {
        refuses(&cube, &request(1, 3, strategy), 14, count);
    }
    for strategy in 0..=3 {
        refuses(&cube, &request(1, 4, strategy), 14, 1);
        refuses(&Cube::new(10), &request(1, 0, strategy), 14, 1024);
    }
}

#[test]
fn the_first_cause_answers() {
    let cube = busy();
    let cut = |frame: Vec<u8>| frame[..frame.len() - 1].to_vec();
    refuses(&cube, &cut(frame(0x0999, &[0, 0])), 3, 0); // 3 and 4
    refuses(&cube, &cut(request(0, 9, 9)), 3, 0); // 3 and 5 to 9
    refuses(&cube, &frame(0x0999, &[0; 9]), 4, 0); // 4 and any size
    refuses(&cube, &frame(0x0201, &[0, 0, 9, 9, 9]), 5, 0); // 5 and 6, 7, 9
    refuses(&cube, &frame(0x0202, &[0, 0, 0]), 5, 0); // 5 and 6
    refuses(&cube, &frame(0x0101, &[16, 0, 0]), 5, 0); // 5 and 8
    refuses(&cube, &frame(0x0203, &[0]), 5, 0); // 5 and 13
    refuses(&cube, &request(0, 5, 5), 6, 0); // 6, 7 and 9
    refuses(&cube, &request(0, 0, 5), 6, 0); // 6 and 9
    refuses(&cube, &request(0, 4, BUDDY), 6, 0); // 6 and 14
    refuses(&Cube::new(4), &release(0), 6, 0); // 6 and 11
    refuses(&cube, &request(7, 5, 5), 7, 0); // 7, 9 and 10
    refuses(&cube, &request(7, 5, BUDDY), 7, 0); // 7 and 10
    refuses(&cube, &repaired(16), 8, 0); // 8 and 12
    refuses(&cube, &request(7, 4, 5), 9, 0); // 9, 10 and 14
    refuses(&cube, &request(1, 4, 5), 9, 0); // 9 and 14
    refuses(&cube, &request(7, 4, BUDDY), 10, 0); // 10 and 14
}

/// 1 answers before 2, and 2 before the others.
#[test]
fn record_and_reply_answer_before_the_frame() {
    let mut damaged = busy();
    damaged.record[15] = 1;
    for (cube, number) in [(damaged, 1), (busy(), 2)] {
        let asked = [request(0, 9, 9), request(7, 4, 0), grow(7, 1, 0), grow(8, 1, 0)];
        let wrong = [vec![9], frame(0x0999, &[]), relabel()];
        for frame in wrong.into_iter().chain(asked) {
            let mut record = cube.record.clone();
            let mut reply = [0xcc; 11];
            assert_eq!(call(&mut record, &frame, &mut reply), number);
            assert_eq!(reply, [0xcc; 11]);
            assert!(record == cube.record);
        }
    }
}
