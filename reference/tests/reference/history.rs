//! A plain account of a list of calls, as document 01's history is.

use cube_reference::family;
use cube_reference::rng::Rng;

use crate::blocks::best_fit;
use crate::support::*;

pub struct History {
    n: u32,
    /// The new direction of each direction up to n.
    map: Vec<u32>,
    pub condition: Vec<u8>,
    holder: Vec<u16>,
    /// The star bits of the grant that holds a node.
    stars: Vec<u16>,
}

/// A reply's fields after its length.
pub type Words = Vec<u16>;

impl History {
    pub fn fresh(n: u32) -> History {
        let (map, nodes) = ((1..=n).collect(), 1 << n);
        let (condition, holder, stars) = (vec![0; nodes], vec![0; nodes], vec![0; nodes]);
        History { n, map, condition, holder, stars }
    }

    /// A record's, where a list begins at it: its holders and star bits stand as
    /// granted, its conditions as reported, and its map.
    pub fn of(record: &[u8]) -> History {
        let (n, nodes) = (record[4].into(), 0..1 << record[4]);
        let map = record[5..][..usize::from(record[4])].iter().map(|new| (*new).into()).collect();
        let words = |part| nodes.clone().map(|node: usize| at(record, part + 2 * node)).collect();
        let condition = record[CONDITIONS..][nodes.clone()].to_vec();
        History { n, map, condition, holder: words(HOLDERS), stars: words(STARS) }
    }

    /// A state that passes refusal 1 and need not come from calls.
    pub fn any(n: u32, rng: &mut Rng) -> History {
        let mut state = History::fresh(n);
        for i in (1..state.map.len()).rev() {
            state.map.swap(i, rng.below(i as u32 + 1) as usize);
        }
        let held = rng.below(9) * rng.below(2);
        for node in 0..1 << n {
            if rng.below(32) < held {
                state.holder[node] = rng.pick(&[1, 2, 255, 256, 65535]);
                state.stars[node] = rng.pick(&[0, 1, 6, 255, 256, 1023, 65535]);
            }
        }
        match rng.below(3) {
            0 => state.scatter(rng),
            _ => state.gather(rng),
        }
        state
    }

    /// Makes some nodes silent, some faulty and all others good.
    fn scatter(&mut self, rng: &mut Rng) {
        let sick = rng.below(9);
        self.condition.fill_with(|| match rng.below(32) {
            roll if roll < sick => 2 * (roll % 2) as u8,
            _ => 1,
        });
    }

    /// As `scatter`, but those that aren't good lie in a subcube.
    fn gather(&mut self, rng: &mut Rng) {
        let nodes = 1 << self.n;
        let (low, stars) = (rng.below(nodes), rng.below(nodes) & rng.below(nodes));
        for (condition, node) in self.condition.iter_mut().zip(0..) {
            *condition = if (node ^ low) & !stars == 0 { rng.below(3) as u8 } else { 1 };
        }
    }

    pub fn record(&self) -> Vec<u8> {
        let mut bytes = vec![0x10, 0x14, 2, 0, self.n as u8];
        bytes.extend(self.map.iter().map(|direction| *direction as u8));
        bytes.extend(self.n as u8 + 1..=10);
        bytes.push(0);
        bytes.extend(self.holder.iter().flat_map(|job| two(*job)));
        bytes.resize(CONDITIONS, 0);
        bytes.extend(&self.condition);
        bytes.resize(STARS, 0);
        bytes.extend(self.stars.iter().flat_map(|stars| two(*stars)));
        bytes.resize(SIZE, 0);
        bytes
    }

    /// How many held nodes aren't good.
    pub fn bad_held(&self) -> usize {
        let nodes = self.holder.iter().zip(&self.condition);
        nodes.filter(|(job, condition)| **job != 0 && **condition != 1).count()
    }

    fn label(&self, node: usize) -> usize {
        (1..).zip(&self.map).map(|(i, new)| (node >> (i - 1) & 1) << (new - 1)).sum()
    }

    /// The number returned, and the reply's words; none for refusal 2.
    pub fn call(&mut self, frame: &[u8], reply: usize) -> (u16, Option<Words>) {
        if reply < 12 {
            return (2, None);
        }
        if let Some(number) = self.cause(frame) {
            return (number, Some(vec![0x8002, number, 0]));
        }
        match at(frame, 2) {
            0x0201 | 0x0204 => self.ask(frame),
            0x0202 => (0, Some(vec![0x8003, self.release(at(frame, 4))])),
            0x0203 => (0, Some(vec![0x8003, self.relabel()])),
            kind => {
                let node = usize::from(at(frame, 4));
                self.condition[node] = [1, 2, 0][usize::from(kind - 0x0101)];
                let holder = if kind == 0x0102 { self.holder[node] } else { 0 };
                (0, Some(vec![0x8003, holder]))
            }
        }
    }

    /// The first of the causes but 14 that the frame meets, from 3 on.
    fn cause(&self, frame: &[u8]) -> Option<u16> {
        if frame.len() < 4 || usize::from(at(frame, 0)) != frame.len() {
            return Some(3);
        }
        let kind = at(frame, 2);
        let size = match kind {
            0x0101..=0x0103 | 0x0202 => 6,
            0x0201 | 0x0204 => 8,
            0x0203 => 4,
            _ => return Some(4),
        };
        if frame.len() != size {
            return Some(5);
        }
        let fields = [&frame[4..], &[0; 4]].concat();
        let (job, k, strategy) = (at(&fields, 0), fields[2], fields[3]);
        let condition = self.condition.get(usize::from(job)); // a report's node
        let report = kind < 0x0200;
        let held = self.holder.iter().filter(|holder| **holder == job).count();
        let (request, release) = (kind == 0x0201, kind == 0x0202);
        let (relabel, grow) = (kind == 0x0203, kind == 0x0204);
        let wide = u32::from(k) > self.n;
        let causes = [
            (6, (request || release || grow) && job == 0),
            (7, (request || grow) && wide),
            (8, report && condition.is_none()),
            (9, (request || grow) && strategy > 4),
            (10, request && held != 0),
            (11, (release || grow) && held == 0),
            (17, grow && !wide && 1 << k <= held),
            (12, kind == 0x0101 && condition == Some(&2)),
            (12, kind == 0x0103 && condition != Some(&2)),
            (13, relabel && self.holder.iter().any(|job| *job != 0)),
        ];
        causes.iter().find(|row| row.1).map(|row| row.0)
    }

    /// A request or a growth: to the asking job its own good nodes are free,
    /// and those outside its member are lost. Who requests holds none.
    fn ask(&mut self, frame: &[u8]) -> (u16, Option<Words>) {
        let (job, k, strategy) = (at(frame, 4), frame[6], frame[7]);
        let mut free = vec![false; 1 << self.n];
        for node in 0..1 << self.n {
            let others = self.holder[node] != 0 && self.holder[node] != job;
            free[self.label(node)] = self.condition[node] == 1 && !others;
        }
        let (found, tried) = match strategy {
            BEST_FIT => best_fit(k, &free),
            _ => first_free(strategy, self.n, k, &free),
        };
        let Some((low, stars)) = found else {
            return (14, Some(vec![0x8002, 14, tried]));
        };
        let inside = |node: &usize| self.label(*node) & !stars == low;
        let nodes: Vec<usize> = (0..1 << self.n).filter(inside).collect();
        self.release(job);
        let star_bits = nodes.iter().fold(0, |bits, node| bits | (node ^ nodes[0])) as u16;
        for node in &nodes {
            (self.holder[*node], self.stars[*node]) = (job, star_bits);
        }
        (0, Some(vec![0x8001, job, nodes[0] as u16, star_bits, tried]))
    }

    fn release(&mut self, job: u16) -> u16 {
        let held: Vec<usize> = (0..1 << self.n).filter(|node| self.holder[*node] == job).collect();
        for node in &held {
            (self.holder[*node], self.stars[*node]) = (0, 0);
        }
        held.len() as u16
    }

    fn relabel(&mut self) -> u16 {
        let not_good: Vec<usize> = (0..1 << self.n).filter(|v| self.condition[*v] != 1).collect();
        let bit = |node: usize, i: &u32| node >> (i - 1) & 1;
        let differ = |i: &u32| not_good.iter().any(|v| bit(*v, i) != bit(not_good[0], i));
        let (d, others): (Vec<u32>, Vec<u32>) = (1..=self.n).partition(differ);
        let identity = d.is_empty() || others.is_empty();
        for (new, i) in (1..).zip(d.iter().chain(&others)) {
            self.map[*i as usize - 1] = if identity { *i } else { new };
        }
        d.len() as u16
    }
}

/// The first free member of a family, by lowest label and stars, and its place
/// from 1; or none, and the family's count.
fn first_free(strategy: u8, n: u32, k: u8, free: &[bool]) -> (Option<(usize, usize)>, u16) {
    let members = family(strategy, n, k.into());
    match members.iter().position(|member| is_free(member.low, member.stars, free)) {
        Some(place) => {
            let (low, stars) = (members[place].low as usize, members[place].stars as usize);
            (Some((low, stars)), place as u16 + 1)
        }
        None => (None, members.len() as u16),
    }
}

/// Document 01's words: at k = 0 its node is free, otherwise both halves
/// across its highest star are.
fn is_free(low: u32, stars: u32, free: &[bool]) -> bool {
    if stars == 0 {
        return free[low as usize];
    }
    let highest = 1 << stars.ilog2();
    is_free(low, stars - highest, free) && is_free(low + highest, stars - highest, free)
}
