//! Records made of disjoint subcubes, by placing them one after another.

use std::collections::HashSet;

use cube_reference::rng::Rng;

use crate::support::*;

/// Job, lowest node and star bits of each subcube.
#[derive(Clone, Debug, Default)]
pub struct Placed(Vec<(u16, u16, u16)>);

/// The vertices of a subcube.
pub fn vertices(lowest: u16, stars: u16) -> impl Iterator<Item = usize> {
    (0..1024).filter(move |node| node & !stars == lowest).map(usize::from)
}

/// The subcubes of a cube, by lowest node and star bits.
fn subcubes(n: u32) -> impl Iterator<Item = (u16, u16)> {
    let nodes = 1 << n;
    (0..nodes)
        .flat_map(move |low| (0..nodes).map(move |stars| (low, stars)))
        .filter(|(l, s)| l & s == 0)
}

impl Placed {
    /// Places a subcube if its nodes are unheld.
    fn place(&mut self, cube: &mut Cube, job: u16, (lowest, stars): (u16, u16)) -> bool {
        let is_unheld = |node| at(&cube.record, HOLDERS + 2 * node) == 0;
        let fits = vertices(lowest, stars).all(is_unheld);
        if fits {
            vertices(lowest, stars).for_each(|node| cube.hold(node, job, stars));
            self.0.push((job, lowest, stars));
        }
        fits
    }

    /// The records in which each of two jobs holds a subcube or nothing.
    pub fn of_two(n: u32, jobs: [u16; 2]) -> HashSet<Vec<u8>> {
        let each = || subcubes(n).map(Some).chain([None]);
        let mut records = HashSet::new();
        for (first, second) in each().flat_map(|first| each().map(move |second| (first, second))) {
            let (mut cube, mut placed) = (Cube::new(n), Placed::default());
            let mut fits = |(job, subcube): (u16, Option<(u16, u16)>)| {
                subcube.is_none_or(|subcube| placed.place(&mut cube, job, subcube))
            };
            if fits((jobs[0], first)) && fits((jobs[1], second)) {
                records.insert(cube.record);
            }
        }
        records
    }

    pub fn pick(&self, rng: &mut Rng) -> Option<(u16, u16, u16)> {
        (!self.0.is_empty()).then(|| rng.pick(&self.0))
    }

    /// A job that has no subcube.
    pub fn unused(&self) -> u16 {
        (1..).find(|job| self.0.iter().all(|placed| placed.0 != *job)).expect("few are placed")
    }
}

/// A record with up to 40 subcubes, of any jobs and in any order of them, any
/// map and any conditions.
pub fn any_cubes(n: u32, rng: &mut Rng) -> (Cube, Placed) {
    let (mut cube, mut placed) = (Cube::new(n), Placed::default());
    let last = (1 << n) - 1;
    for i in (1..n as usize).rev() {
        cube.record.swap(5 + i, 5 + rng.below(i as u32 + 1) as usize);
    }
    cube.record[CONDITIONS..][..1 << n].fill_with(|| rng.below(3) as u8);
    for _ in 0..rng.below(41) {
        let stars = rng.number() as u16 & rng.number() as u16 & last;
        let lowest = rng.number() as u16 & last & !stars;
        let jobs = [placed.unused(), rng.number() as u16 | 0x4000];
        let job = rng.pick(&jobs);
        if placed.0.iter().all(|other| other.0 != job) {
            placed.place(&mut cube, job, (lowest, stars));
        }
    }
    (cube, placed)
}
