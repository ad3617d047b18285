//! What is simulated, and the means of several runs.

use std::collections::HashMap;
use std::hash::Hash;
use std::sync::atomic::{AtomicUsize, Ordering};
use std::sync::Mutex;
use std::thread;

use cube_proved::STRATEGIES;
use cube_reference::rng::Rng;

use crate::cube::Cube;
use crate::lists::{Lists, Take};
use crate::simulate::{run, Allocate, Load, Measures};

#[derive(Clone, Copy, PartialEq, Eq, Hash)]
pub enum Manager {
    /// The proved frame call.
    Proved { strategy: u8, relabel: bool },
    /// Document 003's Algorithm 2 as printed.
    Printed,
}

/// Algorithm 1 of document 003.
pub const BUDDY: Manager = Manager::Proved { strategy: 0, relabel: false };
pub const BUDDY_RELABELLED: Manager = Manager::Proved { strategy: 0, relabel: true };
pub const BEST_FIT: Manager = Manager::Proved { strategy: 4, relabel: false };
/// Algorithm 2, but for which of the smallest subcubes is taken.
pub const BEST_FIT_RELABELLED: Manager = Manager::Proved { strategy: 4, relabel: true };

/// The strategies' numbers.
pub fn strategies() -> impl Iterator<Item = u8> {
    0..STRATEGIES.len() as u8
}

/// Every manager: the strategies without and with relabelling, and Algorithm 2
/// as printed.
pub fn managers() -> Vec<Manager> {
    let both = |strategy| [false, true].map(|relabel| Manager::Proved { strategy, relabel });
    strategies().flat_map(both).chain([Manager::Printed]).collect()
}

#[derive(Clone, Copy, PartialEq, Eq, Hash)]
pub enum Faults {
    /// Nodes 0 and 2^(n-1).
    Extreme,
    /// So many, drawn anew for each run.
    Drawn(usize),
}

/// One cell of a table, for one manager.
#[derive(Clone, Copy, PartialEq, Eq, Hash)]
pub struct Case {
    pub n: u32,
    pub faults: Faults,
    pub residence: u32,
    pub largest: u32,
}

/// The mean of the runs, and its standard error.
#[derive(Clone, Copy)]
pub struct Estimate {
    pub mean: Measures,
    pub error: Measures,
}

pub type Cell = (Manager, Case);
pub type Results = HashMap<Cell, Estimate>;

impl Case {
    /// As document 003 has it: sizes 0 to n.
    pub fn new(n: u32, faults: Faults, residence: u32) -> Case {
        Case { n, faults, residence, largest: n }
    }

    /// How many runs, and how many arrivals in each.
    pub fn extent(&self) -> (u64, u32) {
        match self.faults {
            Faults::Extreme => (20, 20_000),
            Faults::Drawn(_) => (200, 1_000),
        }
    }
}

/// The faulty nodes of a run; those of fewer faults are among those of more.
pub fn faulty(case: Case, seed: u64) -> Vec<u16> {
    let Faults::Drawn(count) = case.faults else {
        return vec![0, 1 << (case.n - 1)];
    };
    let rng = &mut Rng::new(!seed);
    let mut nodes = Vec::new();
    while nodes.len() < count {
        let node = rng.below(1 << case.n) as u16;
        if !nodes.contains(&node) {
            nodes.push(node);
        }
    }
    nodes
}

/// One run; the seed fixes the faulty nodes and all that comes.
pub fn once((manager, case): Cell, seed: u64) -> Measures {
    let faulty = faulty(case, seed);
    let good = (1 << case.n) - faulty.len() as u32;
    let (_, arrivals) = case.extent();
    let load = Load { largest: case.largest, residence: case.residence, arrivals };
    let allocator: &mut dyn Allocate = match manager {
        Manager::Proved { strategy, relabel } => &mut Cube::new(case.n, &faulty, strategy, relabel),
        Manager::Printed => &mut Lists::new(case.n, &faulty, Take::Head),
    };
    run(allocator, case.n, good, load, seed)
}

fn estimate(cell: Cell) -> Estimate {
    let (runs, _) = cell.1.extent();
    let seen: Vec<Measures> = (1..=runs).map(|seed| once(cell, seed)).collect();
    let (granted, granted_error) = mean(seen.iter().map(|m| m.granted).collect());
    let (utilization, utilization_error) = mean(seen.iter().map(|m| m.utilization).collect());
    Estimate {
        mean: Measures { granted, utilization },
        error: Measures { granted: granted_error, utilization: utilization_error },
    }
}

/// The mean and its standard error.
pub fn mean(of: Vec<f64>) -> (f64, f64) {
    let count = of.len() as f64;
    let mean = of.iter().sum::<f64>() / count;
    let square = of.iter().map(|x| (x - mean).powi(2)).sum::<f64>() / (count - 1.0);
    (mean, (square / count).sqrt())
}

/// All cells.
pub fn results(cells: &[Cell]) -> Results {
    on_all_processors(cells, estimate)
}

/// What each cell gives.
pub fn on_all_processors<C, E>(cells: &[C], estimate: fn(C) -> E) -> HashMap<C, E>
where
    C: Copy + Eq + Hash + Send + Sync,
    E: Send,
{
    let (next, seen) = (AtomicUsize::new(0), Mutex::new(HashMap::new()));
    let work = || {
        while let Some(&cell) = cells.get(next.fetch_add(1, Ordering::Relaxed)) {
            let estimate = estimate(cell);
            seen.lock().expect("no thread panics with the lock").insert(cell, estimate);
        }
    };
    thread::scope(|scope| {
        let threads = thread::available_parallelism().map_or(1, |count| count.get());
        (0..threads).for_each(|_| {
            scope.spawn(work);
        });
    });
    seen.into_inner().expect("no thread panics with the lock")
}
