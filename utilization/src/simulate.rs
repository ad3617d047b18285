//! One run of document 003's model: requests come, are granted or lost, and
//! the granted ones leave again.

use std::cmp::Reverse;
use std::collections::BinaryHeap;

use cube_reference::rng::Rng;

/// Mean time between two arrivals.
pub const BETWEEN: f64 = 5.0;

/// Who hands out subcubes.
pub trait Allocate {
    /// Whether a subcube was granted.
    fn request(&mut self, job: u16, k: u8) -> bool;
    /// How many nodes were given back.
    fn release(&mut self, job: u16) -> u32;
}

/// What comes: requests of dimensions 0 to `largest`.
#[derive(Clone, Copy)]
pub struct Load {
    pub largest: u32,
    pub residence: u32,
    pub arrivals: u32,
}

/// The two measures, in percent.
#[derive(Clone, Copy, Default)]
pub struct Measures {
    pub granted: f64,
    pub utilization: f64,
}

/// A job in the cube: the time at which it leaves, as bits (which are in the
/// order of time), its number and its dimension.
type Stay = Reverse<(u64, u16, u8)>;

struct Run<'a> {
    allocator: &'a mut dyn Allocate,
    stays: BinaryHeap<Stay>,
    /// Good processors that nobody holds.
    free: u32,
    clock: f64,
    /// Node times of the granted requests.
    busy: f64,
    valid: u32,
    granted: u32,
}

/// A run on a cube of 2^n nodes of which `good` are good. What comes goes by
/// the seed alone, so that every allocator meets the same requests.
pub fn run(allocator: &mut dyn Allocate, n: u32, good: u32, load: Load, seed: u64) -> Measures {
    let rng = &mut Rng::new(seed);
    let stays = BinaryHeap::new();
    let mut run = Run { allocator, stays, free: good, clock: 0.0, busy: 0.0, valid: 0, granted: 0 };
    for arrival in 0..load.arrivals {
        run.clock += exponential(rng, BETWEEN);
        let k = rng.below(load.largest + 1) as u8;
        let stay = exponential(rng, f64::from(load.residence));
        run.depart();
        run.arrive(job(arrival), k, stay);
    }
    Measures {
        granted: 100.0 * f64::from(run.granted) / f64::from(run.valid),
        utilization: 100.0 * run.busy / (run.clock * f64::from(1 << n)),
    }
}

/// Job numbers go round; whoever had the number before has left long ago.
pub fn job(arrival: u32) -> u16 {
    (arrival % 65535) as u16 + 1
}

/// The unit is above 0, as its logarithm needs.
pub fn exponential(rng: &mut Rng, mean: f64) -> f64 {
    let unit = ((rng.number() >> 11) + 1) as f64 / (1u64 << 53) as f64;
    -mean * unit.ln()
}

impl Run<'_> {
    /// Releases all that have left by now.
    fn depart(&mut self) {
        while let Some(&Reverse((leaves, job, k))) = self.stays.peek() {
            if f64::from_bits(leaves) > self.clock {
                break;
            }
            self.stays.pop();
            let back = self.allocator.release(job);
            assert_eq!(back, 1 << k, "nodes given back");
            self.free += back;
        }
    }

    /// A request is valid if as many processors are free as it asks for. One
    /// that isn't granted is lost.
    fn arrive(&mut self, job: u16, k: u8, stay: f64) {
        let nodes = 1 << k;
        let valid = nodes <= self.free;
        let granted = self.allocator.request(job, k);
        assert!(valid || !granted, "more was granted than was free");
        self.valid += u32::from(valid);
        if granted {
            self.granted += 1;
            self.free -= nodes;
            self.busy += f64::from(nodes) * stay;
            self.stays.push(Reverse(((self.clock + stay).to_bits(), job, k)));
        }
    }
}
