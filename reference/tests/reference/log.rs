//! Document 01, "Log program".

use std::io::{self, Read, Write};
use std::process::{Command, Stdio};

use cube_reference::log::{record_after, run, run_up_to};
use cube_reference::{Reply, Tally};

use crate::support::*;

const EXAMPLE: &str = "06 00 01 03 01 00, 06 00 01 01 00 00, \
                       08 00 01 02 07 00 00 00, 06 00 02 01 01 00";

const EXAMPLE_OUTPUT: &str = "\
1 setup 1
2 done 0
3 granted 7 0 0 1
4 done 0
total 4 setup 1 done 2 granted 1 refused 0
";

fn bytes(hexadecimal: &str) -> Vec<u8> {
    let words = hexadecimal.split([' ', ',']).filter(|word| !word.is_empty());
    words.map(|word| u8::from_str_radix(word, 16).unwrap()).collect()
}

fn printed(input: &[u8]) -> String {
    let mut output = Vec::new();
    run(input, &mut output).unwrap();
    String::from_utf8(output).unwrap()
}

fn setup_frame(n: u16) -> Vec<u8> {
    frame(0x0301, &two(n))
}

#[test]
fn the_example_whole() {
    assert_eq!(printed(&bytes(EXAMPLE)), EXAMPLE_OUTPUT);
}

#[test]
fn the_example_by_cube_ref() {
    let mut program = Command::new(env!("CARGO_BIN_EXE_cube-ref"))
        .stdin(Stdio::piped())
        .stdout(Stdio::piped())
        .spawn()
        .unwrap();
    program.stdin.take().unwrap().write_all(&bytes(EXAMPLE)).unwrap();
    let output = program.wait_with_output().unwrap();
    assert!(output.status.success());
    assert_eq!(String::from_utf8(output.stdout).unwrap(), EXAMPLE_OUTPUT);
}

/// Job 7 holds node 0, which is good and a subcube without stars; node 1 is
/// faulty.
#[test]
fn the_record_that_the_example_leaves() {
    let mut expected = [0; SIZE];
    expected[..16].copy_from_slice(&[0x10, 0x14, 2, 0, 1, 1, 2, 3, 4, 5, 6, 7, 8, 9, 10, 0]);
    expected[HOLDERS] = 7;
    expected[CONDITIONS..][..2].copy_from_slice(&[1, 2]);
    assert!(record_after(&bytes(EXAMPLE)[..]).unwrap() == expected);
}

/// Both nodes are job 5's; the growth's star bits are 1.
#[test]
fn the_record_that_a_growth_leaves() {
    let calls = [good(0), good(1), request(5, 0, TREE), grow(5, 1, TREE)];
    let record = record_after(&[setup_frame(1), calls.concat()].concat()[..]).unwrap();
    assert_eq!(record[HOLDERS..][..5], [5, 0, 5, 0, 0]);
    assert_eq!(record[STARS..][..5], [1, 0, 1, 0, 0]);
}

#[test]
fn empty_input_prints_the_counts_alone() {
    assert_eq!(printed(&[]), "total 0 setup 0 done 0 granted 0 refused 0\n");
}

#[test]
fn a_first_frame_that_is_no_right_set_up_stops() {
    let stops = |input: &[u8], number: u32| {
        // What follows would be accepted after a set-up.
        let input = [input, &setup_frame(1), &good(0)].concat();
        let counts = "total 1 setup 0 done 0 granted 0 refused 1";
        assert_eq!(printed(&input), format!("1 refused {number} 0\n{counts}\n"), "{input:x?}");
    };
    stops(&[0, 0], 3);
    stops(&[3, 0, 1], 3);
    stops(&bytes("ff ff 01 03 01 00"), 3); // past the input's end
    stops(&bytes("03 00 01 03 01 00"), 3);
    stops(&good(0), 4);
    stops(&relabel(), 4);
    stops(&frame(0x0300, &[1, 0]), 4);
    stops(&frame(0x0999, &[99; 9]), 4); // 4 before 5
    stops(&frame(0x0301, &[]), 5);
    stops(&frame(0x0301, &[11]), 5); // 5 before 7
    stops(&frame(0x0301, &[11, 0, 0]), 5);
    stops(&setup_frame(11), 7);
    stops(&setup_frame(256), 7); // the field has two bytes
    stops(&setup_frame(65535), 7);
}

#[test]
fn a_first_frame_cut_short_is_refused_3() {
    let whole = setup_frame(1);
    for length in 1..whole.len() {
        let output = "1 refused 3 0\ntotal 1 setup 0 done 0 granted 0 refused 1\n";
        assert_eq!(printed(&whole[..length]), output);
    }
    let output = "1 setup 1\ntotal 1 setup 1 done 0 granted 0 refused 0\n";
    assert_eq!(printed(&whole), output);
}

#[test]
fn each_n_is_set_up() {
    for n in 0..=10 {
        let output = format!("1 setup {n}\ntotal 1 setup 1 done 0 granted 0 refused 0\n");
        assert_eq!(printed(&setup_frame(n)), output);
    }
}

#[test]
fn a_bad_length_later_stops() {
    let ends = ["05", "00 00", "03 00 01", "07 00 01 01 00 00", "ff ff", "06 00 01 01 00", "04 00"];
    for end in ends {
        let input = [setup_frame(1), good(0), bytes(end)].concat();
        let output = "1 setup 1\n2 done 0\n3 refused 3 0\n\
                      total 3 setup 1 done 1 granted 0 refused 1\n";
        assert_eq!(printed(&input), output, "{end}");
    }
    // A length under 4 stops though the input goes on.
    let input = [setup_frame(1), bytes("02 00"), good(0), good(1)].concat();
    let output = "1 setup 1\n2 refused 3 0\ntotal 2 setup 1 done 0 granted 0 refused 1\n";
    assert_eq!(printed(&input), output);
}

#[test]
fn a_later_refusal_does_not_stop() {
    let input = [
        setup_frame(1),
        setup_frame(2), // an unknown kind now
        frame(0x0301, &[]),
        frame(0x0101, &[0]),
        good(2),
        good(1),
        request(5, 1, GRAY),
        request(5, 0, GRAY),
        fault(1),
        release(5),
        release(6),
    ]
    .concat();
    let output = "1 setup 1\n2 refused 4 0\n3 refused 4 0\n4 refused 5 0\n5 refused 8 0\n\
                  6 done 0\n7 refused 14 1\n8 granted 5 1 0 2\n9 done 5\n10 done 1\n\
                  11 refused 11 0\ntotal 11 setup 1 done 3 granted 1 refused 6\n";
    assert_eq!(printed(&input), output);
}

#[test]
fn a_growth_prints_as_a_grant() {
    let asked = [request(5, 0, GRAY), grow(5, 1, TREE), grow(5, 1, TREE), grow(6, 1, TREE)];
    let input = [setup_frame(1), good(0), good(1), asked.concat()].concat();
    let output = "1 setup 1\n2 done 0\n3 done 0\n4 granted 5 0 0 1\n5 granted 5 0 1 1\n\
                  6 refused 17 0\n7 refused 11 0\n\
                  total 7 setup 1 done 2 granted 2 refused 2\n";
    assert_eq!(printed(&input), output);
}

#[test]
fn the_longest_frame_is_read_whole() {
    let longest = frame(0x0101, &vec![0; 65531]);
    assert_eq!(longest[..2], [0xff, 0xff]);
    let input = [setup_frame(0), longest.clone(), good(0)].concat();
    let output = "1 setup 0\n2 refused 5 0\n3 done 0\n\
                  total 3 setup 1 done 1 granted 0 refused 1\n";
    assert_eq!(printed(&input), output);
    let input = [setup_frame(0), longest[..65534].to_vec()].concat();
    let output = "1 setup 0\n2 refused 3 0\ntotal 2 setup 1 done 0 granted 0 refused 1\n";
    assert_eq!(printed(&input), output);
}

/// Gives its bytes one at a time, with interruptions between them.
struct Slow<'a>(&'a [u8], bool);

impl Read for Slow<'_> {
    fn read(&mut self, into: &mut [u8]) -> io::Result<usize> {
        self.1 = !self.1;
        if self.1 {
            return Err(io::ErrorKind::Interrupted.into());
        }
        let count = into.len().min(1);
        self.0.read(&mut into[..count])
    }
}

#[test]
fn how_the_input_arrives_does_not_matter() {
    let mut output = Vec::new();
    run(Slow(&bytes(EXAMPLE), false), &mut output).unwrap();
    assert_eq!(String::from_utf8(output).unwrap(), EXAMPLE_OUTPUT);
}

/// `run` reads up to 4294967295 frames; a smaller limit shows that what comes
/// after the last is not looked at, be it a frame or a lone byte.
#[test]
fn it_reads_no_further_after_the_last_frame() {
    for rest in ["", "06", "06 00 01 01 00 00", "00 00"] {
        let input = [setup_frame(0), good(0), bytes(rest)].concat();
        let mut output = Vec::new();
        let tally = run_up_to(2, &input[..], &mut output).unwrap();
        assert_eq!(tally, Tally { total: 2, setup: 1, done: 1, granted: 0, refused: 0 });
    }
}

#[test]
fn counts_stay_at_4294967295() {
    let most = 4294967295;
    let last = most - 1;
    let mut tally = Tally { total: last, setup: last, done: last, granted: last, refused: last };
    let full = Tally { total: most, setup: most, done: most, granted: most, refused: most };
    for _ in 0..2 {
        tally.add_setup();
        tally.add_reply(&Reply::Done { value: 0 });
        tally.add_reply(&Reply::Granted { job: 1, lowest: 0, stars: 0, tried: 1 });
        tally.add_reply(&Reply::Refused { number: 14, tried: 1 });
        assert_eq!(tally, full);
    }
    let text = "total 4294967295 setup 4294967295 done 4294967295 \
                granted 4294967295 refused 4294967295";
    assert_eq!(full.to_string(), text);
}
