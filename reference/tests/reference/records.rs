//! Document 01, "Node and record", with the size and kind of document 02, (f):
//! set-up, refusal 1, and records that pass it though no list of calls leaves
//! them. What it asks of star bits is tested in `stars`.

use cube_reference::setup;

use crate::support::*;

#[test]
fn set_up_makes_a_fresh_cube_of_any_buffer() {
    for n in 0..=10 {
        let mut fresh = vec![0x10, 0x14, 0x02, 0x00, n as u8]; // 5136 is 0x1410
        fresh.extend([1, 2, 3, 4, 5, 6, 7, 8, 9, 10, 0]);
        fresh.resize(5136, 0);
        for byte in [0, 0xff, 0x5a] {
            let mut record = vec![byte; 5136];
            assert_eq!(setup(&mut record, n), 0);
            assert!(record == fresh);
        }
    }
}

#[test]
fn a_refused_set_up_writes_nothing() {
    for size in [0, 12, 3088, 5135, 5137, 10272] {
        for n in [0, 10, 11, u32::MAX] {
            let mut record = vec![0x5a; size];
            assert_eq!(setup(&mut record, n), 1, "1 is judged before 7");
            assert!(record == vec![0x5a; size]);
        }
    }
    for n in [11, 256, 65536, u32::MAX] {
        let mut record = vec![0x5a; SIZE];
        assert_eq!(setup(&mut record, n), 7);
        assert!(record == vec![0x5a; SIZE]);
    }
}

/// A working cube of dimension 3 with these bytes set.
fn with_bytes(bytes: &[(usize, u8)]) -> Vec<u8> {
    let mut cube = Cube::with_good(3, |node| node != 5);
    assert_eq!(cube.call(&fault(5)), Got::Done(0));
    assert_eq!(cube.call(&request(9, 1, BUDDY)), granted(9, 0, 1, 1));
    for (place, value) in bytes {
        cube.record[*place] = *value;
    }
    cube.record
}

#[test]
fn a_damaged_record_is_refused_with_1() {
    assert_eq!(returned(&with_bytes(&[])), 0);
    let damages: &[&[(usize, u8)]] = &[
        &[(0, 0x11)],             // length
        &[(1, 0x15)],             // length
        &[(1, 0x0c)],             // length 3088
        &[(2, 0)],                // kind
        &[(2, 1)],                // kind 0x0001
        &[(3, 1)],                // kind
        &[(4, 11)],               // n above 10
        &[(4, 255)],              // n above 10
        &[(4, 2)],                // n 2: the map stands, nodes 4 to 7 are set
        &[(5, 0)],                // map entry 0
        &[(5, 2)],                // map entry twice
        &[(7, 4)],                // map entry above n
        &[(7, 4), (8, 3)],        // 1 to 4 permuted, n being 3
        &[(5, 255)],              // map entry far above n
        &[(8, 5)],                // entry above n not itself
        &[(8, 0)],                // entry above n not itself
        &[(13, 10), (14, 9)],     // entries above n swapped
        &[(15, 1)],               // zero byte
        &[(HOLDERS + 16, 1)],     // holder of node 8
        &[(HOLDERS + 17, 1)],     // holder of node 8, high byte
        &[(CONDITIONS - 1, 1)],   // holder of node 1023
        &[(CONDITIONS, 3)],       // condition above 2
        &[(CONDITIONS + 7, 255)], // condition above 2
        &[(CONDITIONS + 8, 1)],   // condition of node 8
        &[(STARS - 1, 2)],        // condition of node 1023
    ];
    for damage in damages {
        assert_eq!(returned(&with_bytes(damage)), 1, "{damage:?}");
    }
}

#[test]
fn a_record_of_another_size_is_refused_with_1() {
    let record = with_bytes(&[]);
    assert_eq!(returned(&[]), 1);
    assert_eq!(returned(&record[..5135]), 1);
    assert_eq!(returned(&[&record[..], &[0]].concat()), 1);
}

/// Length 3088, kind 0x0001, and nothing after the conditions.
#[test]
fn a_record_without_star_bits_is_refused_with_1() {
    let old = with_bytes(&[(1, 0x0c), (2, 1)]);
    assert_eq!(returned(&old[..3088]), 1);
    assert_eq!(returned(&old), 1);
    assert_eq!(returned(&with_bytes(&[])[..3088]), 1);
}

/// At n = 10 every node is below 2^n, and every byte of a holder may be any.
#[test]
fn any_holders_pass_below_2_to_the_n() {
    let mut cube = Cube::new(10);
    for (place, byte) in (HOLDERS..CONDITIONS).zip((0u8..=250).cycle()) {
        cube.record[place] = byte;
    }
    assert_eq!(returned(&cube.record), 0);
    cube.record[STARS - 1] = 2;
    assert_eq!(returned(&cube.record), 0);
    cube.record[STARS - 1] = 3;
    assert_eq!(returned(&cube.record), 1);
}

/// Job 9 holds 1, 2 and 4, which are no subcube; 4 is faulty, 2 unconfirmed.
#[test]
fn scattered_holders_are_released_together() {
    let mut cube = Cube::with_good(3, |node| node != 2 && node != 4);
    for node in [1, 2, 4] {
        cube.hold(node, 9, 0);
    }
    cube.record[CONDITIONS + 4] = 2;
    assert_eq!(cube.call(&request(9, 0, BUDDY)), refused(10, 0));
    assert_eq!(cube.call(&fault(2)), Got::Done(9));
    assert_eq!(cube.call(&release(9)), Got::Done(3));
    assert!(cube.held_by(9).is_empty());
    // Free are 0, 1, 3, 5, 6 and 7. The tree tries 0XX, X0X, X1X and 1XX;
    // then come XX0 and XX1.
    assert_eq!(cube.call(&request(9, 2, TREE)), refused(14, 4));
    assert_eq!(cube.call(&request(9, 2, EXTENDED)), granted(9, 1, 6, 6));
}

/// The map sends direction 1 to 2, 2 to 3 and 3 to 1, so the lowest label
/// bit is direction 3, the next direction 1 and the highest direction 2.
#[test]
fn grants_are_in_node_numbers_by_any_map() {
    let mut cube = Cube::with_good(3, |_| true);
    cube.record[5..8].copy_from_slice(&[2, 3, 1]);
    assert_eq!([1, 2, 4].map(|node| cube.label(node)), [2, 4, 1]);
    assert_eq!(cube.call(&request(1, 1, BUDDY)), granted(1, 0, 4, 1));
    assert_eq!(cube.call(&request(2, 1, BUDDY)), granted(2, 1, 4, 2));
    assert_eq!(cube.call(&request(3, 0, BUDDY)), granted(3, 2, 0, 5));
    assert_eq!(cube.call(&request(4, 1, BUDDY)), granted(4, 3, 4, 4));
    assert_eq!(cube.held_by(4), [3, 7]);
}
