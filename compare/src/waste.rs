//! Document 02, (n), without one of its conditions: runs, worked out by hand, in
//! which both programs refuse a request though its size is at most the count of
//! free nodes.

use cube_proved::frame::{fault, good, release, request};
use cube_reference::family::{BEST_FIT, BUDDY};
use cube_reference::record::SIZE;

use crate::no_waste::free;
use crate::pair::Pair;

/// The number that a call gives, and its reply's words.
type Given = (u32, Vec<u16>);

fn granted(job: u16, lowest: u16, stars: u16, tried: u16) -> Given {
    (0, vec![12, 0x8001, job, lowest, stars, tried])
}

fn none_free(tried: u16) -> Given {
    (14, vec![8, 0x8002, 14, tried])
}

fn done(value: u16) -> Given {
    (0, vec![6, 0x8003, value])
}

/// Every run; the first one that isn't as it should be, in words.
pub fn runs() -> Result<(), String> {
    two_dead_nodes().map_err(|what| format!("two dead nodes: {what}"))?;
    first_fit().map_err(|what| format!("first fit: {what}"))?;
    release_between().map_err(|what| format!("a release in between: {what}"))
}

/// Nodes 1 and 2 are left, which are no pair.
fn two_dead_nodes() -> Result<(), String> {
    let mut cube = Cube::new(2, |node| node == 1 || node == 2)?;
    cube.gives(&fault(3), done(0))?;
    cube.wastes(2, 1, BEST_FIT, 2)?;
    cube.gives(&request(1, 0, BEST_FIT), granted(1, 1, 0, 2))?;
    cube.gives(&request(2, 0, BEST_FIT), granted(2, 2, 0, 1))
}

/// Row 6 of the sessions, and what best fit makes of it.
fn first_fit() -> Result<(), String> {
    let start = || {
        let mut cube = Cube::new(3, |node| node != 4)?;
        cube.gives(&fault(4), done(0)).map(|()| cube)
    };
    let mut cube = start()?;
    cube.gives(&request(1, 1, BUDDY), granted(1, 0, 1, 1))?;
    cube.wastes(5, 2, BUDDY, 2)?;
    let mut cube = start()?;
    cube.gives(&request(1, 1, BEST_FIT), granted(1, 6, 1, 3))?;
    cube.gives(&request(2, 2, BEST_FIT), granted(2, 0, 3, 2))
}

/// Each of four jobs has a node; 0 and 3 are given back, which are no pair.
fn release_between() -> Result<(), String> {
    let mut cube = Cube::new(2, |_| true)?;
    for (job, tried) in [(1, 1), (2, 2), (3, 1), (4, 1)] {
        cube.gives(&request(job, 0, BEST_FIT), granted(job, job - 1, 0, tried))?;
    }
    cube.gives(&release(1), done(1))?;
    cube.gives(&release(4), done(1))?;
    cube.wastes(2, 1, BEST_FIT, 2)
}

struct Cube(Pair);

impl Cube {
    /// Set up, and reported good as far as `is_good` says.
    fn new(n: u32, is_good: impl Fn(u16) -> bool) -> Result<Cube, String> {
        let mut cube = Cube(Pair::new(vec![0xa5; SIZE]));
        match cube.0.setup(n)? {
            0 => {}
            number => return Err(format!("both gave {number} for set-up")),
        }
        for node in (0..1 << n).filter(|node| is_good(*node)) {
            cube.gives(&good(node), done(0))?;
        }
        Ok(cube)
    }

    /// The call to both programs, with this number and this reply.
    fn gives(&mut self, frame: &[u8], (number, words): Given) -> Result<(), String> {
        let (got, reply) = self.0.replied(frame, &[0xcc; 12])?;
        let expected: Vec<u8> = words.iter().flat_map(|word| word.to_le_bytes()).collect();
        if got == number && reply[..expected.len()] == expected {
            return Ok(());
        }
        let both = format!("frame {frame:02x?}: both gave {got} and {reply:02x?}");
        Err(format!("{both}, not {number} and {expected:02x?}"))
    }

    /// So many nodes are free, enough for k; still job 9 is refused 14.
    fn wastes(&mut self, nodes: u32, k: u8, strategy: u8, tried: u16) -> Result<(), String> {
        match free(&self.0.proved) {
            counted if counted == nodes && 1 << k <= nodes => {
                self.gives(&request(9, k, strategy), none_free(tried))
            }
            counted => Err(format!("{counted} nodes are free for k {k}, not {nodes}")),
        }
    }
}
