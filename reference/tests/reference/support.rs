//! A cube driven through frames and bytes.

use cube_reference::{call, label, node, setup};

pub const BUDDY: u8 = 0;
pub const GRAY: u8 = 1;
pub const TREE: u8 = 2;
pub const EXTENDED: u8 = 3;
pub const BEST_FIT: u8 = 4;

/// The size of a record, and where it has holders, conditions and star bits:
/// document 01, "Node and record", and document 02, (f).
pub const SIZE: usize = 5136;
pub const HOLDERS: usize = 16;
pub const CONDITIONS: usize = HOLDERS + 2048;
pub const STARS: usize = CONDITIONS + 1024;

/// What a call gave, read from its reply's bytes.
#[derive(Clone, Copy, Debug, PartialEq, Eq)]
pub enum Got {
    Granted { job: u16, lowest: u16, stars: u16, tried: u16 },
    Refused { number: u16, tried: u16 },
    Done(u16),
}

/// Two bytes, little-endian.
pub fn two(value: u16) -> [u8; 2] {
    [value as u8, (value >> 8) as u8]
}

pub fn at(bytes: &[u8], place: usize) -> u16 {
    u16::from(bytes[place]) + 256 * u16::from(bytes[place + 1])
}

/// A frame: length, kind, fields.
pub fn frame(kind: u16, fields: &[u8]) -> Vec<u8> {
    let mut bytes = two(4 + fields.len() as u16).to_vec();
    bytes.extend(two(kind));
    bytes.extend(fields);
    bytes
}

pub fn good(node: u16) -> Vec<u8> {
    frame(0x0101, &two(node))
}

pub fn fault(node: u16) -> Vec<u8> {
    frame(0x0102, &two(node))
}

pub fn repaired(node: u16) -> Vec<u8> {
    frame(0x0103, &two(node))
}

pub fn relabel() -> Vec<u8> {
    frame(0x0203, &[])
}

pub fn request(job: u16, k: u8, strategy: u8) -> Vec<u8> {
    let [low, high] = two(job);
    frame(0x0201, &[low, high, k, strategy])
}

pub fn release(job: u16) -> Vec<u8> {
    frame(0x0202, &two(job))
}

pub fn grow(job: u16, k: u8, strategy: u8) -> Vec<u8> {
    let [low, high] = two(job);
    frame(0x0204, &[low, high, k, strategy])
}

pub fn granted(job: u16, lowest: u16, stars: u16, tried: u16) -> Got {
    Got::Granted { job, lowest, stars, tried }
}

pub fn refused(number: u16, tried: u16) -> Got {
    Got::Refused { number, tried }
}

pub struct Cube {
    pub record: Vec<u8>,
}

impl Cube {
    /// A fresh cube.
    pub fn new(n: u32) -> Cube {
        let mut record = vec![0xa5; SIZE];
        assert_eq!(setup(&mut record, n), 0);
        Cube { record }
    }

    /// A cube whose nodes have been reported good as far as `is_good` says.
    pub fn with_good(n: u32, is_good: impl Fn(u16) -> bool) -> Cube {
        let mut cube = Cube::new(n);
        for node in (0..1 << n).filter(|node| is_good(*node)) {
            assert_eq!(cube.call(&good(node)), Got::Done(0));
        }
        cube
    }

    /// A cube with these nodes silent and these faulty; all others have been
    /// reported good.
    pub fn with_not_good(n: u32, silent: &[u16], faulty: &[u16]) -> Cube {
        let mut cube =
            Cube::with_good(n, |node| !silent.contains(&node) && !faulty.contains(&node));
        for node in faulty {
            assert_eq!(cube.call(&fault(*node)), Got::Done(0));
        }
        cube
    }

    /// One call with a reply buffer of 12 bytes, and its reply.
    pub fn call(&mut self, frame: &[u8]) -> Got {
        let mut reply = [0; 12];
        let number = call(&mut self.record, frame, &mut reply);
        let got = read(&reply);
        let returned = match got {
            Got::Refused { number, .. } => number,
            _ => 0,
        };
        assert_eq!(number, u32::from(returned));
        got
    }

    /// The map's entry for direction i, 1 to 10.
    pub fn direction(&self, i: usize) -> u8 {
        self.record[4 + i]
    }

    /// A node's label by the map that stands in the record.
    pub fn label(&self, number: u32) -> u32 {
        let map = self.record[5..15].try_into().unwrap();
        let found = label(&map, number);
        assert_eq!(node(&map, found), number);
        found
    }

    /// The nodes that a job holds, by the record's bytes.
    pub fn held_by(&self, job: u16) -> Vec<u16> {
        (0..1024).filter(|node| at(&self.record, HOLDERS + 2 * usize::from(*node)) == job).collect()
    }

    /// Makes a job the holder of a node, with these star bits, by no grant.
    pub fn hold(&mut self, node: usize, job: u16, stars: u16) {
        self.record[HOLDERS + 2 * node..][..2].copy_from_slice(&two(job));
        self.record[STARS + 2 * node..][..2].copy_from_slice(&two(stars));
    }
}

/// What a call returns on a record; refusal 1 leaves record and reply.
pub fn returned(record: &[u8]) -> u32 {
    let mut after = record.to_vec();
    let mut reply = [0xcc; 16];
    let number = call(&mut after, &good(0), &mut reply);
    if number == 1 {
        assert!(after == record);
        assert_eq!(reply, [0xcc; 16]);
    }
    number
}

/// The call is accepted, and the record differs from what it was in just these
/// bytes.
pub fn changes(cube: &mut Cube, frame: &[u8], bytes: &[(usize, u8)]) {
    let mut expected = cube.record.clone();
    for (place, value) in bytes {
        expected[*place] = *value;
    }
    assert!(!matches!(cube.call(frame), Got::Refused { .. }));
    assert!(cube.record == expected, "record after {frame:x?}");
}

/// The call is refused: the number is returned, the record stays, the reply
/// gets the refused frame of eight bytes and keeps the bytes after it.
pub fn refuses(cube: &Cube, frame: &[u8], number: u8, tried: u16) {
    let mut record = cube.record.clone();
    let mut reply = [0xcc; 20];
    assert_eq!(call(&mut record, frame, &mut reply), number.into(), "frame {frame:x?}");
    assert!(record == cube.record, "record changed by {frame:x?}");
    let [low, high] = two(tried);
    assert_eq!(reply[..8], [8, 0, 0x02, 0x80, number, 0, low, high]);
    assert_eq!(reply[8..], [0xcc; 12]);
}

fn read(reply: &[u8]) -> Got {
    match (at(reply, 0), at(reply, 2)) {
        (12, 0x8001) => granted(at(reply, 4), at(reply, 6), at(reply, 8), at(reply, 10)),
        (8, 0x8002) => refused(at(reply, 4), at(reply, 6)),
        (6, 0x8003) => Got::Done(at(reply, 4)),
        other => panic!("no reply has length and kind {other:x?}"),
    }
}
