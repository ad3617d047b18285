//! Jobs that ask for a dimension more halfway through their stay: by a growth,
//! and in the two ways that there are without one.

use std::cmp::Reverse;
use std::collections::{BinaryHeap, HashMap};

use cube_proved::frame::{grow, request};
use cube_reference::rng::Rng;

use crate::cube::{Cube, Subcube};
use crate::simulate::{exponential, job, Allocate, BETWEEN};
use crate::study::{faulty, mean, on_all_processors, strategies, Case};

#[derive(Clone, Copy, PartialEq, Eq, Hash)]
pub enum Way {
    /// By a growth.
    Grow,
    /// A release, then a request. If this is refused, a request for the size
    /// that the job had.
    ReleaseFirst,
    /// A request under another job number and, if it is granted, a release.
    RequestFirst,
}

pub const WAYS: [Way; 3] = [Way::Grow, Way::ReleaseFirst, Way::RequestFirst];

/// A cube that is relabelled by its faulty nodes, a load and a way.
#[derive(Clone, Copy, PartialEq, Eq, Hash)]
pub struct Cell {
    pub strategy: u8,
    pub case: Case,
    pub way: Way,
}

/// The means of the runs, and the standard error of the share that is granted.
pub struct Estimate {
    pub mean: Shares,
    pub error: f64,
}

pub type Results = HashMap<Cell, Estimate>;

/// Shares in percent.
#[derive(Clone, Copy)]
pub struct Shares {
    /// Of the valid ones, those that are granted.
    pub granted: f64,
    /// Of these, those that keep all nodes that the job had.
    pub kept: f64,
    /// Of the refused ones, those after which the job holds other nodes.
    pub displaced: f64,
}

/// A job in the cube. The time at which it leaves is in bits, which are in the
/// order of time.
#[derive(Clone, Copy, PartialEq, Eq, PartialOrd, Ord)]
struct Job {
    number: u16,
    k: u8,
    holds: Subcube,
    leaves: u64,
}

#[derive(Default)]
struct Counts {
    asked: u32,
    valid: u32,
    granted: u32,
    kept: u32,
    displaced: u32,
}

struct Run {
    cube: Cube,
    way: Way,
    /// The times, in bits, at which jobs ask for more or leave.
    events: BinaryHeap<Reverse<(u64, Job)>>,
    /// Good nodes that nobody holds.
    free: u32,
    counts: Counts,
}

/// All ways of all strategies in some cases.
pub fn results(cases: &[Case]) -> Results {
    let strategies = |&case| strategies().map(move |strategy| (strategy, case));
    let ways = |(strategy, case)| WAYS.map(|way| Cell { strategy, case, way });
    let cells: Vec<Cell> = cases.iter().flat_map(strategies).flat_map(ways).collect();
    on_all_processors(&cells, estimate)
}

fn estimate(cell: Cell) -> Estimate {
    let (runs, _) = cell.case.extent();
    let seen: Vec<Shares> = (1..=runs).map(|seed| once(cell, seed)).collect();
    let of_runs = |share: fn(&Shares) -> f64| mean(seen.iter().map(share).collect());
    let (granted, error) = of_runs(|shares| shares.granted);
    let (kept, _) = of_runs(|shares| shares.kept);
    let (displaced, _) = of_runs(|shares| shares.displaced);
    Estimate { mean: Shares { granted, kept, displaced }, error }
}

/// One run; the seed fixes all that comes, as it does in `simulate`.
pub fn once(Cell { strategy, case, way }: Cell, seed: u64) -> Shares {
    let (faulty, rng) = (faulty(case, seed), &mut Rng::new(seed));
    let cube = Cube::new(case.n, &faulty, strategy, true);
    let free = (1 << case.n) - faulty.len() as u32;
    let mut run = Run { cube, way, events: BinaryHeap::new(), free, counts: Counts::default() };
    let mut clock = 0.0;
    for arrival in 0..case.extent().1 {
        clock += exponential(rng, BETWEEN);
        let k = rng.below(case.largest + 1) as u8;
        let stay = exponential(rng, f64::from(case.residence));
        run.until(clock);
        run.arrive(job(arrival), k, clock, stay);
    }
    run.counts.shares()
}

impl Run {
    /// All that happens by now: jobs ask for more, then leave.
    fn until(&mut self, clock: f64) {
        while let Some(&Reverse((time, job))) = self.events.peek() {
            if f64::from_bits(time) > clock {
                break;
            }
            self.events.pop();
            if time == job.leaves {
                self.free += self.cube.release(job.number);
            } else {
                let job = self.ask_more(job);
                self.events.push(Reverse((job.leaves, job)));
            }
        }
    }

    fn arrive(&mut self, number: u16, k: u8, clock: f64, stay: f64) {
        if let Some(holds) = self.cube.ask(request, number, k) {
            self.free -= 1 << k;
            let job = Job { number, k, holds, leaves: (clock + stay).to_bits() };
            self.events.push(Reverse(((clock + stay / 2.0).to_bits(), job)));
        }
    }

    /// The job afterwards. It asks validly if as many nodes as it asks for are
    /// good and unheld or its own.
    fn ask_more(&mut self, job: Job) -> Job {
        let after = match self.way {
            Way::Grow => self.grow(job),
            Way::ReleaseFirst => self.release_first(job),
            Way::RequestFirst => self.request_first(job),
        };
        let own = 1 << job.k;
        let (valid, granted) = (own <= self.free, after.k > job.k);
        assert!(valid || !granted, "more was granted than was free");
        let counts = &mut self.counts;
        counts.asked += 1;
        counts.valid += u32::from(valid);
        if granted {
            self.free -= own;
            counts.granted += 1;
            counts.kept += u32::from(contains(after.holds, job.holds));
        } else {
            counts.displaced += u32::from(after.holds != job.holds);
        }
        after
    }

    /// At one moment a growth gets what a release and a request would.
    fn grow(&mut self, job: Job) -> Job {
        let mut other = self.cube.clone();
        other.release(job.number);
        let got = self.cube.ask(grow, job.number, job.k + 1);
        assert_eq!(got, other.ask(request, job.number, job.k + 1));
        got.map_or(job, |holds| Job { k: job.k + 1, holds, ..job })
    }

    fn release_first(&mut self, job: Job) -> Job {
        self.cube.release(job.number);
        if let Some(holds) = self.cube.ask(request, job.number, job.k + 1) {
            return Job { k: job.k + 1, holds, ..job };
        }
        let holds = self.cube.ask(request, job.number, job.k);
        Job { holds: holds.expect("the nodes that it had are free"), ..job }
    }

    /// Arrivals are fewer than 0x8000, so that none has the other number.
    fn request_first(&mut self, job: Job) -> Job {
        let number = job.number + 0x8000;
        let Some(holds) = self.cube.ask(request, number, job.k + 1) else {
            return job;
        };
        self.cube.release(job.number);
        Job { number, k: job.k + 1, holds, ..job }
    }
}

/// Whether one subcube has all nodes of another.
fn contains((low, stars): Subcube, (other, others): Subcube) -> bool {
    others & !stars == 0 && other & !stars == low
}

impl Counts {
    fn shares(&self) -> Shares {
        let share = |part: u32, whole: u32| 100.0 * f64::from(part) / f64::from(whole);
        Shares {
            granted: share(self.granted, self.valid),
            kept: share(self.kept, self.granted),
            displaced: share(self.displaced, self.asked - self.granted),
        }
    }
}
