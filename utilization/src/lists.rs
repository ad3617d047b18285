//! Document 003's Algorithm 2 as its figures 3 and 4 print it, in plain Rust
//! and not proved: relabelling, then buddy with a list of free subcubes for
//! each size (best fit). Figure 3's splitting is read as a loop from search - 1
//! down to dim; as printed it never ends.
//!
//! It checks strategy 4 too, which takes the lowest of a size where the paper
//! takes the head of its list.

use std::collections::HashMap;

use cube_reference::{label, node, relabel, Map};

use crate::cube::Subcube;
use crate::simulate::Allocate;

/// Which subcube of a list is taken.
#[derive(Clone, Copy)]
pub enum Take {
    /// The one that was put in last, as printed.
    Head,
    /// The one with the lowest label, as strategy 4 does.
    Lowest,
}

pub struct Lists {
    map: Map,
    take: Take,
    /// Lowest labels of the free subcubes of each dimension; a list's head is
    /// its last entry.
    free: Vec<Vec<u32>>,
    held: HashMap<u16, (u32, usize)>,
}

impl Lists {
    /// All nodes are held, and the good ones given back.
    pub fn new(n: u32, faulty: &[u16], take: Take) -> Lists {
        let nodes = faulty.iter().map(|&node| u32::from(node));
        let (map, _) = relabel(n, nodes.clone());
        let faulty: Vec<u32> = nodes.map(|node| label(&map, node)).collect();
        let free = vec![Vec::new(); n as usize + 1];
        let mut lists = Lists { map, take, free, held: HashMap::new() };
        for good in (0..1 << n).filter(|label| !faulty.contains(label)) {
            lists.give_back(good, 0);
        }
        lists
    }

    /// Joins a subcube with its buddy for as long as that is free.
    fn give_back(&mut self, mut lowest: u32, mut k: usize) {
        while let Some(place) = self.free[k].iter().position(|&other| other == lowest ^ 1 << k) {
            self.free[k].remove(place);
            lowest &= !(1 << k);
            k += 1;
        }
        self.free[k].push(lowest);
    }

    /// Takes a subcube out of a list that has one.
    fn take(&mut self, size: usize) -> u32 {
        let list = &mut self.free[size];
        let place = match self.take {
            Take::Head => list.len() - 1,
            Take::Lowest => (0..list.len()).min_by_key(|&place| list[place]).expect("it has one"),
        };
        list.remove(place)
    }

    fn allocate(&mut self, k: usize) -> Option<u32> {
        let found = (k..self.free.len()).find(|&size| !self.free[size].is_empty())?;
        let lowest = self.take(found);
        for split in (k..found).rev() {
            self.free[split].push(lowest + (1 << split));
        }
        Some(lowest)
    }

    /// What a request is granted, in node numbers.
    pub fn ask(&mut self, job: u16, k: u8) -> Option<Subcube> {
        let lowest = self.allocate(k.into())?;
        self.held.insert(job, (lowest, k.into()));
        let [lowest, stars] = [lowest, (1 << k) - 1].map(|label| node(&self.map, label) as u16);
        Some((lowest, stars))
    }

    /// How many subcubes all lists have.
    pub fn count(&self) -> usize {
        self.free.iter().map(Vec::len).sum()
    }
}

impl Allocate for Lists {
    fn request(&mut self, job: u16, k: u8) -> bool {
        self.ask(job, k).is_some()
    }

    fn release(&mut self, job: u16) -> u32 {
        let (lowest, k) = self.held.remove(&job).expect("a job that holds a subcube");
        self.give_back(lowest, k);
        1 << k
    }
}
