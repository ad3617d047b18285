//! One cube, worked through the proved frame call alone.

use cube_proved::frame;
use cube_reference::record::SIZE;
use cube_reference::Reply;

use crate::simulate::Allocate;

/// Lowest node and star bits.
pub type Subcube = (u16, u16);

/// The frame by which a job asks for dimension k by a strategy.
pub type Asking = fn(job: u16, k: u8, strategy: u8) -> Vec<u8>;

/// A refusal that the simulation never causes ends the program.
#[derive(Clone)]
pub struct Cube {
    record: [u8; SIZE],
    strategy: u8,
}

impl Cube {
    /// All nodes are reported good but the faulty ones; the map is the
    /// identity unless `relabel`.
    pub fn new(n: u32, faulty: &[u16], strategy: u8, relabel: bool) -> Cube {
        let mut cube = Cube { record: [0; SIZE], strategy };
        assert_eq!(cube_proved::setup(&mut cube.record, n), 0);
        for node in 0..1 << n {
            let report = if faulty.contains(&node) { frame::fault } else { frame::good };
            cube.done(&report(node));
        }
        if relabel {
            cube.done(&frame::relabel());
        }
        cube
    }

    /// What a request or a growth, whose frames `asking` makes, is granted, and
    /// how many were tried.
    pub fn answer(&mut self, asking: Asking, job: u16, k: u8) -> (Option<Subcube>, u16) {
        match self.call(&asking(job, k, self.strategy)) {
            Reply::Granted { job: got, lowest, stars, tried } => {
                assert_eq!((got, stars.count_ones()), (job, k.into()));
                (Some((lowest, stars)), tried)
            }
            Reply::Refused { number: 14, tried } => (None, tried),
            other => panic!("job {job} asked for {k} and was answered {other:?}"),
        }
    }

    /// What it is granted.
    pub fn ask(&mut self, asking: Asking, job: u16, k: u8) -> Option<Subcube> {
        self.answer(asking, job, k).0
    }

    fn done(&mut self, frame: &[u8]) -> u32 {
        match self.call(frame) {
            Reply::Done { value } => value.into(),
            other => panic!("{frame:02x?} was answered {other:?}"),
        }
    }

    fn call(&mut self, frame: &[u8]) -> Reply {
        let mut reply = [0; 12];
        cube_proved::call(&mut self.record, frame, &mut reply);
        Reply::read(&reply).expect("a call with a right record and buffer is answered")
    }
}

impl Allocate for Cube {
    fn request(&mut self, job: u16, k: u8) -> bool {
        self.ask(frame::request, job, k).is_some()
    }

    fn release(&mut self, job: u16) -> u32 {
        self.done(&frame::release(job))
    }
}
