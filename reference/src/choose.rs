//! What a strategy chooses: the first free member that a walk meets, document
//! 01, "Families and their order", or the best fit, document 02, (a).

use std::ops::Range;

use crate::best::best_fit;
use crate::cube::{ones, MAX_N};
use crate::family::{gray, Subcube, BEST_FIT, BUDDY, GRAY, STRATEGIES, TREE};

/// What a strategy chooses, with 'tried', or that none is free. A walk has tried
/// the members up to the first free one, or all; best fit counts the maximal
/// free blocks.
#[derive(Clone, Copy, Debug, PartialEq, Eq)]
pub enum Answer {
    Found { low: u32, stars: u32, tried: u32 },
    NoneFree { count: u32 },
}

/// What a strategy chooses, where `free` tells a free label. The strategy is one
/// of `STRATEGIES`, n at most 10 and k at most n.
pub fn choose(strategy: u8, n: u32, k: u32, free: &dyn Fn(u32) -> bool) -> Answer {
    choose_with(strategy, n, k, free)
}

/// As `choose`, with the test of a label known at compile time.
pub(crate) fn choose_with(strategy: u8, n: u32, k: u32, free: impl Fn(u32) -> bool) -> Answer {
    assert!(STRATEGIES.contains(&strategy) && n <= MAX_N && k <= n);
    if strategy == BEST_FIT {
        return best_fit(n, k, free);
    }
    let mut walk = Walk { free, tried: 0 };
    let found = match (strategy, k) {
        (GRAY, _) => walk.gray(n, k),
        (BUDDY, _) | (_, 0) => walk.buddy(n, k),
        (TREE, _) => walk.tree(n, k),
        _ => walk.tree(n, k).or_else(|| walk.extension(n, k)),
    };
    let tried = walk.tried;
    match found {
        Some(Subcube { low, stars }) => Answer::Found { low, stars, tried },
        None => Answer::NoneFree { count: tried },
    }
}

/// A walk counts the members it has passed and the one it stands at.
struct Walk<F> {
    free: F,
    tried: u32,
}

impl<F: Fn(u32) -> bool> Walk<F> {
    /// Whether each label of a subcube is free; stops at the first that isn't.
    fn is_free(&self, low: u32, stars: u32) -> bool {
        let mut part = 0;
        loop {
            if !(self.free)(low | part) {
                return false;
            }
            part = part.wrapping_sub(stars) & stars;
            if part == 0 {
                return true;
            }
        }
    }

    fn member(&mut self, low: u32, stars: u32) -> Option<Subcube> {
        self.tried += 1;
        self.is_free(low, stars).then_some(Subcube { low, stars })
    }

    fn buddy(&mut self, n: u32, k: u32) -> Option<Subcube> {
        (0..1 << (n - k)).find_map(|a| self.member(a << k, ones(k)))
    }

    /// Member a joins the blocks of 2^(k-1) labels at the digits G(a) and
    /// G(a + 1), which differ in one bit; the last joins the first block again.
    fn gray(&mut self, n: u32, k: u32) -> Option<Subcube> {
        if k == 0 {
            return (0..1 << n).find_map(|b| self.member(gray(b), 0));
        }
        if k == n {
            return self.member(0, ones(n));
        }
        let digits = n - k + 1;
        (0..1 << digits).find_map(|a| {
            let (one, other) = (gray(a), gray((a + 1) & ones(digits)));
            let star = (one ^ other) << (k - 1);
            self.member((one & other) << (k - 1), star | ones(k - 1))
        })
    }

    fn tree(&mut self, n: u32, k: u32) -> Option<Subcube> {
        let digits = n - k + 1;
        (0..1 << digits).find_map(|a| self.partners(a, 0..digits, k - 1, ones(k - 1)))
    }

    /// The extended family's members after the tree's.
    fn extension(&mut self, n: u32, k: u32) -> Option<Subcube> {
        let digits = n - k + 1;
        for a in 0..1 << digits {
            for d in 1..k {
                let block = ones(d) << (n - d) | ones(k - 1 - d);
                let found = self.partners(a, 1..digits, k - 1 - d, block);
                if found.is_some() {
                    return found;
                }
            }
        }
        None
    }

    /// The members that join the block at digits `a` with its partner at p,
    /// for each place p where `a` has a 0. The digits stand above `bottom`
    /// bits. A block that isn't free is tested once and all of them passed.
    fn partners(&mut self, a: u32, places: Range<u32>, bottom: u32, block: u32) -> Option<Subcube> {
        let low = a << bottom;
        let zeros = !a & ones(places.end) & !ones(places.start);
        if zeros == 0 {
            return None;
        }
        if !self.is_free(low, block) {
            self.tried += zeros.count_ones();
            return None;
        }
        for p in places.filter(|p| zeros >> p & 1 == 1) {
            self.tried += 1;
            let star = 1 << (bottom + p);
            if self.is_free(low | star, block) {
                return Some(Subcube { low, stars: block | star });
            }
        }
        None
    }
}
