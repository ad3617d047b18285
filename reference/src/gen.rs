//! The writer of random logs. It leans to document 01's edges and keeps a
//! cube at work: many nodes good, few jobs, those that aren't good close by.

use std::collections::VecDeque;
use std::io::{self, Write};

use crate::call::call;
use crate::family::{BEST_FIT, BUDDY, STRATEGIES};
use crate::fits;
use crate::health::{faulty, is_silent, is_wild, Area};
use crate::log::SETUP;
use crate::noise::{self, frame, report, Frame};
use crate::record::{self, setup, Record, SIZE};
use crate::rng::Rng;

/// The cube is filled about once in so many frames.
const FILLED: u32 = 100;

/// The most free blocks that are all asked for.
const FILLED_MOST: usize = 32;

/// Jobs that come beside the small ones: the last, and a byte full or empty.
const EDGE_JOBS: [u16; 3] = [65535, 256, 255];

/// Writes a log of `frames` frames, the set-up included; n is the seed's
/// remainder by 11. One log in four ends in a frame whose length is wrong.
pub fn write_log(seed: u64, frames: u64, mut output: impl Write) -> io::Result<()> {
    let n = (seed % 11) as u16;
    let mut record = [0; SIZE];
    setup(&mut record, n.into());
    let mut log = Log::new(seed, frames.saturating_sub(1), &record);
    if frames != 0 {
        output.write_all(&frame(SETUP, &n.to_le_bytes()))?;
    }
    for _ in 1..frames {
        let frame = log.next(&record);
        call(&mut record, &frame, &mut [0; 12]);
        output.write_all(&frame)?;
    }
    output.flush()
}

/// A random list of calls, each drawn for the record that those before it
/// left. The record passes refusal 1.
pub struct Log {
    rng: Rng,
    n: u32,
    /// Frames that are still to come.
    left: u64,
    /// Jobs 1 to `jobs` do most of the work.
    jobs: u32,
    /// The cube is drained and relabelled once in so many times.
    drained: u32,
    area: Area,
    /// At most so many nodes are made faulty one by one.
    faulty_most: usize,
    /// Frames that are to come in this order.
    plan: VecDeque<Frame>,
}

impl Log {
    /// A list of `left` frames.
    pub fn new(seed: u64, left: u64, record: &Record) -> Log {
        let (n, conditions) = (record::dimension(record), record::conditions(record));
        let mut rng = Rng::new(seed);
        let jobs = 1 + rng.below(24.min(2 << n));
        let drained = rng.pick(&[12, 50]);
        let faulty_most = rng.below(8) as usize;
        let area = Area::of(&mut rng, conditions);
        let mut log = Log { rng, n, left, jobs, drained, area, faulty_most, plan: VecDeque::new() };
        if is_silent(conditions) || (is_wild(conditions) && log.rng.one_in(2)) {
            log.wake();
        }
        for job in record::jobs(record) {
            if log.rng.one_in(2) {
                let growth = log.growth(record, job);
                log.plan.push_back(growth);
            }
        }
        if !log.rng.one_in(4) {
            log.drain(record);
        }
        log
    }

    /// The next frame. One list in four has a broken frame as its last.
    pub fn next(&mut self, record: &Record) -> Frame {
        self.left = self.left.saturating_sub(1);
        if self.left == 0 && self.rng.one_in(4) {
            return noise::broken(&mut self.rng);
        }
        let planned = if self.rng.one_in(16) { None } else { self.plan.pop_front() };
        planned.unwrap_or_else(|| self.any(record))
    }

    fn any(&mut self, record: &Record) -> Frame {
        if self.rng.one_in(self.drained) {
            self.drain(record);
            return self.release();
        }
        match self.rng.below(120) {
            0..42 => self.request(),
            42..66 => self.release(),
            66..76 => self.good(),
            76..84 => self.fault_or_repair(record),
            84..86 => report(0x0103, self.rng.below(1 << self.n)),
            86..89 => frame(0x0203, &[]),
            89..91 => self.later_setup(),
            91..98 => noise::malformed(&mut self.rng),
            98..111 => self.grow(record),
            _ => self.hurt(record),
        }
    }

    /// Plans 'good' for every node if that leaves a third of the frames,
    /// otherwise for neighbours, and mostly leaves some out, in the area alone
    /// or anywhere. A relabel of the cube as it is comes first at times.
    fn wake(&mut self) {
        let nodes = 1 << self.n;
        let whole = u64::from(nodes) <= self.left * 2 / 3;
        let count = if whole { nodes } else { (self.left / 2).min(nodes.into()) as u32 };
        let step = if whole { self.rng.below(nodes) | 1 } else { 1 };
        let start = self.rng.below(nodes) & !15;
        let left_out = self.rng.pick(&[(0, 0), (2, 0), (2, 0), (2, 0), (64, 64), (8, 8), (2, 2)]);
        if self.rng.one_in(4) {
            self.plan.push_back(frame(0x0203, &[]));
        }
        for i in 0..count {
            let node = (start + i * step) % nodes;
            if !self.area.hits(&mut self.rng, node, left_out) {
                self.plan.push_back(report(0x0101, node));
            }
        }
    }

    fn node(&mut self) -> u32 {
        let nodes = 1 << self.n;
        match self.rng.below(48) {
            0 | 1 => nodes,
            2 | 3 => nodes - 1,
            4 => 65535,
            _ => self.rng.below(nodes),
        }
    }

    fn job(&mut self) -> u16 {
        match self.rng.below(32) {
            0 => 0,
            1 | 2 => self.rng.pick(&EDGE_JOBS),
            _ => 1 + self.rng.below(self.jobs) as u16,
        }
    }

    fn good(&mut self) -> Frame {
        let node = self.node();
        report(0x0101, node)
    }

    fn release(&mut self) -> Frame {
        let job = self.job();
        frame(0x0202, &job.to_le_bytes())
    }

    /// Small dimensions come oftener.
    fn request(&mut self) -> Frame {
        let n = self.n;
        let k = match self.rng.below(32) {
            0..4 => n,
            4..6 => n + 1,
            6 => 255,
            _ => self.rng.below(n + 1).min(self.rng.below(n + 1)),
        };
        let job = self.job();
        self.ask(0x0201, job, k)
    }

    /// A request or a growth.
    fn ask(&mut self, kind: u16, job: u16, k: u32) -> Frame {
        let strategy = match self.rng.below(32) {
            0 => 5,
            1 => 255,
            _ => self.rng.pick(&STRATEGIES),
        };
        let job = job.to_le_bytes();
        frame(kind, &[job[0], job[1], k as u8, strategy])
    }

    /// A growth, mostly by a job that holds nodes.
    fn grow(&mut self, record: &Record) -> Frame {
        let jobs = record::jobs(record);
        let job = match self.rng.below(8) {
            1.. if !jobs.is_empty() => self.rng.pick(&jobs),
            _ => self.job(),
        };
        self.growth(record, job)
    }

    /// A growth by a job, mostly to the least dimension that is more than it
    /// holds, or to the one below.
    fn growth(&mut self, record: &Record, job: u16) -> Frame {
        let n = self.n;
        let more = u16::BITS - record::held(record, job).leading_zeros();
        let k = match self.rng.below(32) {
            0..3 => n.saturating_sub(self.rng.below(3)),
            3 => self.rng.pick(&[n + 1, 255]),
            4..6 => self.rng.below(more + 1),
            6..10 => more.saturating_sub(1),
            10..14 => (more + self.rng.below(3)).min(n),
            _ => more.min(n),
        };
        self.ask(0x0204, job, k)
    }

    /// A growth by a job to the largest dimension that would be granted now;
    /// any if none would.
    fn largest(&mut self, record: &Record, job: u16) -> Frame {
        for k in (0..=self.n).rev() {
            let growth = self.ask(0x0204, job, k);
            if call(&mut { *record }, &growth, &mut [0; 12]) == 0 {
                return growth;
            }
        }
        self.growth(record, job)
    }

    /// A fault of a held node, which may be repaired then; next its job grows.
    fn hurt(&mut self, record: &Record) -> Frame {
        let is_held = |node: &u32| record::holder(record, *node) != 0;
        let nodes: Vec<u32> = (0..1 << self.n).filter(is_held).collect();
        if nodes.is_empty() {
            return self.request();
        }
        let node = self.rng.pick(&nodes);
        let job = record::holder(record, node);
        let growth = match self.rng.below(3) {
            0 => self.largest(record, job),
            _ => self.growth(record, job),
        };
        self.plan.push_front(growth);
        if self.rng.one_in(3) {
            self.plan.push_front(report(0x0103, node));
        }
        report(0x0102, node)
    }

    /// A fault while few nodes are faulty, otherwise a repair; a repaired
    /// node is mostly reported good next.
    fn fault_or_repair(&mut self, record: &Record) -> Frame {
        let faulty = faulty(record::conditions(record));
        if faulty.len() < self.faulty_most && !self.rng.one_in(3) {
            let node = match self.rng.below(16) {
                0 => self.node(),
                _ => self.area.node(&mut self.rng),
            };
            return report(0x0102, node);
        }
        if faulty.is_empty() {
            let node = self.node();
            return report(0x0103, node);
        }
        let node = self.rng.pick(&faulty);
        if !self.rng.one_in(4) {
            self.plan.push_back(report(0x0101, node));
        }
        report(0x0103, node)
    }

    /// Plans a request for each maximal free block, largest first, so that buddy
    /// and best fit take one whole and leave nothing free; then one by best fit.
    /// That one comes alone if the blocks are too many. Gives the jobs of these,
    /// which aren't among those that hold nodes.
    fn fill(&mut self, record: &Record, holding: &[u16]) -> Vec<u16> {
        let mut blocks = fits::dimensions(record);
        if blocks.len() > FILLED_MOST {
            blocks.clear();
        }
        blocks.sort_by(|one, other| other.cmp(one));
        let mut asked: Vec<(u32, u8)> =
            blocks.into_iter().map(|k| (k, self.rng.pick(&[BUDDY, BEST_FIT]))).collect();
        asked.push((self.rng.below(self.n + 1), BEST_FIT));
        let jobs: Vec<u16> = (1..).filter(|job| !holding.contains(job)).take(asked.len()).collect();
        for (job, (k, strategy)) in jobs.iter().zip(asked) {
            let [low, high] = job.to_le_bytes();
            self.plan.push_back(frame(0x0201, &[low, high, k as u8, strategy]));
        }
        jobs
    }

    /// Plans reports, a release by each job that holds nodes, and a relabel. The
    /// cube is filled first at times.
    fn drain(&mut self, record: &Record) {
        let mut jobs = record::jobs(record);
        if self.rng.one_in(FILLED / self.drained) {
            jobs.extend(self.fill(record, &jobs));
        }
        let reports = self.area.settle(&mut self.rng, record::conditions(record));
        self.plan.extend(reports);
        for job in jobs {
            self.plan.push_back(frame(0x0202, &job.to_le_bytes()));
        }
        self.plan.push_back(frame(0x0203, &[]));
    }

    fn later_setup(&mut self) -> Frame {
        let n = self.rng.below(12) as u16;
        frame(SETUP, &n.to_le_bytes())
    }
}
