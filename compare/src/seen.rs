//! What the calls met and drew, and whether each of it often enough.

use std::fmt::{self, Display};

use cube_reference::drawn::Drawn;
use cube_reference::record::{dimension, holder, is_valid, set_stars, stars, Record, NODES};
use cube_reference::{fits, growths, stars as star_bits};

use crate::loads::Loads;

/// So often at least is each number to be met.
const NUMBER: u64 = 20;

/// The numbers that calls can meet, and those that growths can.
const NUMBERS: [usize; 16] = [0, 1, 2, 3, 4, 5, 6, 7, 8, 9, 10, 11, 12, 13, 14, 17];
const OF_GROWTHS: [usize; 11] = [0, 1, 2, 3, 5, 6, 7, 9, 11, 14, 17];

/// So often at least is each sort of relabel and grant to come, those by
/// silent and faulty nodes at every n from 2.
const RELABEL: u64 = 10;

/// So often at least is each sort of growth, of call by star bits and of best fit
/// to come at every n where it can.
const SORT: u64 = 5;

/// So many lists at least are to begin where star bits alone make it no record.
const STARRED: u64 = 5;

#[derive(Default)]
pub struct Seen {
    /// Calls by the number returned, and of these the frames of a growth's kind.
    numbers: [u64; 18],
    growths: [u64; 18],
    pub drawn: [Drawn; 11],
    /// Lists that begin where star bits alone make it no record: those of a
    /// node below 2^n, or of one beyond.
    starred: [u64; 2],
    pub loads: Loads,
}

impl Seen {
    pub fn add(&mut self, frame: &[u8], number: u32) {
        self.numbers[number as usize] += 1;
        let is_growth = frame.get(2..4) == Some(&[0x04, 0x02]);
        self.growths[number as usize] += u64::from(is_growth);
    }

    /// Counts what a list begins at.
    pub fn add_start(&mut self, bytes: &[u8]) {
        let starred = starred(bytes);
        self.starred.iter_mut().zip(starred).for_each(|(count, is)| *count += u64::from(is));
    }

    /// What came too seldom, in words.
    pub fn rare(&self) -> Option<String> {
        let by_call = self.rare_number().or_else(|| self.rare_relabel());
        let by_list = || self.rare_sort().or_else(|| self.rare_start());
        by_call.or_else(by_list).or_else(|| self.loads.rare())
    }

    fn rare_number(&self) -> Option<String> {
        let by_any = NUMBERS.into_iter().find(|number| self.numbers[*number] < NUMBER);
        let by_growth = || OF_GROWTHS.into_iter().find(|number| self.growths[*number] < NUMBER);
        let told = |number| format!("number {number} was met under {NUMBER} times");
        by_any.map(told).or_else(|| by_growth().map(|number| told(number) + " by growths"))
    }

    fn rare_sort(&self) -> Option<String> {
        for (n, drawn) in self.drawn.iter().enumerate() {
            let mut rare = drawn.sorts().filter(|(_, least, count)| n >= *least && *count < SORT);
            if let Some((sort, _, count)) = rare.next() {
                return Some(format!("at n {n} came {count} times: {sort}"));
            }
        }
        None
    }

    fn rare_start(&self) -> Option<String> {
        let rare = self.starred.iter().any(|count| *count < STARRED);
        rare.then(|| format!("lists began with wrong star bits {:?} times", self.starred))
    }

    fn rare_relabel(&self) -> Option<String> {
        let sum = self.sum();
        if sum.empty.min(sum.all) < RELABEL {
            return Some(format!("relabels with D empty or all n came under {RELABEL} times"));
        }
        let few = |n: &usize| self.drawn[*n].mixed.min(self.drawn[*n].after_mixed) < RELABEL;
        let n = (2..11).find(few)?;
        let what = "relabels by silent and faulty nodes together, or grants after them,";
        Some(format!("at n {n} {what} came under {RELABEL} times"))
    }

    fn sum(&self) -> Drawn {
        let mut sum = Drawn::default();
        self.drawn.iter().for_each(|drawn| sum += *drawn);
        sum
    }
}

impl Display for Seen {
    fn fmt(&self, to: &mut fmt::Formatter) -> fmt::Result {
        let sum = self.sum();
        write!(to, "by number {:?}; relabels with D empty {}, ", self.numbers, sum.empty)?;
        write!(to, "all n {}, between {}, of these {} by ", sum.all, sum.between, sum.mixed)?;
        write!(to, "silent and faulty nodes together, then {} grants; ", sum.after_mixed)?;
        write!(to, "growths by number {:?}", self.growths)?;
        list(to, &growths::SORTS, &sum.growths.0)?;
        write!(to, "; star bits: {:?} lists begun with wrong ones", self.starred)?;
        list(to, &star_bits::SORTS, &sum.stars.0)?;
        write!(to, "; best fit")?;
        list(to, &fits::SORTS, &sum.fits.0)?;
        write!(to, "; {}", self.loads)
    }
}

/// How often each sort came.
fn list(to: &mut fmt::Formatter, sorts: &[(&str, usize)], counts: &[u64]) -> fmt::Result {
    let mut sorts = sorts.iter().zip(counts);
    sorts.try_for_each(|((sort, _), count)| write!(to, ", {count} {sort}"))
}

/// Whether star bits alone make this no record: those of a node below 2^n, or
/// of one beyond.
fn starred(bytes: &[u8]) -> [bool; 2] {
    let Ok(record) = Record::try_from(bytes) else { return [false; 2] };
    let is_wrong = |node: &u32| holder(&record, *node) == 0 && stars(&record, *node) != 0;
    let wrong: Vec<u32> = (0..NODES as u32).filter(is_wrong).collect();
    let mut mended = record;
    wrong.iter().for_each(|node| set_stars(&mut mended, *node, 0));
    let is_below = |node: &u32| *node < 1 << dimension(&mended);
    let alone = is_valid(&mended);
    [alone && wrong.iter().any(is_below), alone && !wrong.iter().all(is_below)]
}
