//! What random lists of calls draw: the D of accepted relabels, grants by the
//! maps that these set, growths, star bits, and best fits.

use std::ops::AddAssign;

use crate::counts::Counts;
use crate::cube::{relabel, IDENTITY};
use crate::frame::{self, Call};
use crate::record::{self, Record, FAULTY, GOOD, UNCONFIRMED};
use crate::{fits, growths, stars};

/// Counts for one n.
#[derive(Clone, Copy, Debug, Default)]
pub struct Drawn {
    /// Accepted relabels whose D is empty, is all n, or is neither.
    pub empty: u64,
    pub all: u64,
    pub between: u64,
    /// Those of `between` whose D is neither that of the silent nodes alone
    /// nor that of the faulty ones alone.
    pub mixed: u64,
    /// Grants while the map isn't the identity.
    pub moved: u64,
    /// Those of `moved` where such a mixed relabel set the map.
    pub after_mixed: u64,
    pub growths: Counts<{ growths::SORTS.len() }>,
    pub stars: Counts<{ stars::SORTS.len() }>,
    pub fits: Counts<{ fits::SORTS.len() }>,
}

impl Drawn {
    /// Each sort of growth, of call by star bits and of best fit in words, the
    /// least n at which it can come, and how often it came.
    pub fn sorts(&self) -> impl Iterator<Item = (&'static str, usize, u64)> {
        let sorts = growths::SORTS.into_iter().chain(stars::SORTS).chain(fits::SORTS);
        let counts = self.growths.0.into_iter().chain(self.stars.0).chain(self.fits.0);
        sorts.zip(counts).map(|((sort, least), count)| (sort, least, count))
    }
}

impl AddAssign for Drawn {
    fn add_assign(&mut self, other: Drawn) {
        self.empty += other.empty;
        self.all += other.all;
        self.between += other.between;
        self.mixed += other.mixed;
        self.moved += other.moved;
        self.after_mixed += other.after_mixed;
        self.growths += other.growths;
        self.stars += other.stars;
        self.fits += other.fits;
    }
}

/// One list of calls on a cube.
#[derive(Default)]
pub struct List {
    pub drawn: Drawn,
    /// Whether the map is that of a mixed relabel.
    mixed: bool,
}

impl List {
    /// Counts a call, given the number that was returned and the record before
    /// and after it.
    pub fn add(&mut self, frame: &[u8], number: u32, before: &Record, after: &Record) {
        self.drawn.growths.add(growths::sorts(frame, number, before, after));
        self.drawn.fits.add(fits::sorts(frame, number, before));
        if number == 0 {
            self.drawn.stars.add(stars::sorts(frame, before, after));
        }
        match frame::read(frame) {
            Ok(Call::Relabel) if number == 0 => self.add_relabel(after),
            Ok(Call::Request { .. }) if number == 0 => {
                let moved = record::map(after) != IDENTITY;
                self.drawn.moved += u64::from(moved);
                self.drawn.after_mixed += u64::from(moved && self.mixed);
            }
            _ => {}
        }
    }

    fn add_relabel(&mut self, record: &Record) {
        let n = record::dimension(record);
        let conditions = record::conditions(record);
        let size = |is_such: fn(u8) -> bool| {
            let nodes = conditions.iter().zip(0..).filter(|(condition, _)| is_such(**condition));
            relabel(n, nodes.map(|(_, node)| node)).1
        };
        let d = size(|condition| condition != GOOD);
        let between = d != 0 && d != n;
        let alone = [size(|condition| condition == UNCONFIRMED), size(|c| c == FAULTY)];
        self.mixed = between && !alone.contains(&d);
        self.drawn.empty += u64::from(d == 0);
        self.drawn.all += u64::from(d == n && n != 0);
        self.drawn.between += u64::from(between);
        self.drawn.mixed += u64::from(self.mixed);
    }
}
