//! The four families as lists: document 01, "Families and their order".
//!
//! The lists follow the document's words member by member. The frame call
//! doesn't use them; it walks the same order in `choose`.

use crate::cube::{ones, MAX_N};

pub const BUDDY: u8 = 0;
pub const GRAY: u8 = 1;
pub const TREE: u8 = 2;
pub const EXTENDED: u8 = 3;
pub const BEST_FIT: u8 = 4;

/// The strategies that a request or a growth may name; others are refused 9.
pub const STRATEGIES: [u8; 5] = [BUDDY, GRAY, TREE, EXTENDED, BEST_FIT];

/// A subcube: its lowest label (stars as 0) and its star bits.
#[derive(Clone, Copy, Debug, PartialEq, Eq, Hash, PartialOrd, Ord)]
pub struct Subcube {
    pub low: u32,
    pub stars: u32,
}

/// G(b), the Gray code of a position.
pub fn gray(b: u32) -> u32 {
    b ^ (b >> 1)
}

/// The members of a strategy's family in their order. The strategy is at most
/// 3, for best fit walks no family; n is at most 10 and k at most n.
pub fn family(strategy: u8, n: u32, k: u32) -> Vec<Subcube> {
    assert!(strategy <= EXTENDED && n <= MAX_N && k <= n);
    match strategy {
        BUDDY => buddy_members(n, k),
        GRAY => gray_members(n, k),
        TREE => tree_members(n, k),
        _ => extended_members(n, k),
    }
}

fn buddy_members(n: u32, k: u32) -> Vec<Subcube> {
    let member = |a: u32| Subcube { low: a << k, stars: ones(k) };
    (0..1 << (n - k)).map(member).collect()
}

fn gray_members(n: u32, k: u32) -> Vec<Subcube> {
    if k == 0 {
        let single = |b| Subcube { low: gray(b), stars: 0 };
        return (0..1 << n).map(single).collect();
    }
    if k == n {
        return vec![Subcube { low: 0, stars: ones(n) }];
    }
    (0..1 << (n - k + 1)).map(|a| gray_member(n, k, a)).collect()
}

/// The labels G(b mod 2^n) for 2^k positions b from a * 2^(k-1).
fn gray_member(n: u32, k: u32, a: u32) -> Subcube {
    let half = 1 << (k - 1);
    let (mut common, mut any) = (ones(n), 0);
    for b in a * half..(a + 2) * half {
        let label = gray(b & ones(n));
        common &= label;
        any |= label;
    }
    Subcube { low: common, stars: any & !common }
}

fn tree_members(n: u32, k: u32) -> Vec<Subcube> {
    if k == 0 {
        return buddy_members(n, 0);
    }
    let digits = n - k + 1;
    let mut members = Vec::new();
    for a in 0..1u32 << digits {
        for p in 0..digits {
            if a >> p & 1 == 0 {
                members.push(paired(k - 1, a, p, ones(k - 1)));
            }
        }
    }
    members
}

/// The tree's members, then by a, by d and by p those with top stars.
fn extended_members(n: u32, k: u32) -> Vec<Subcube> {
    let mut members = tree_members(n, k);
    if k == 0 {
        return members;
    }
    let digits = n - k + 1;
    for a in 0..1u32 << digits {
        for d in 1..k {
            for p in 1..digits {
                if a >> p & 1 == 0 {
                    let ends = ones(d) << (n - d) | ones(k - 1 - d);
                    members.push(paired(k - 1 - d, a, p, ends));
                }
            }
        }
    }
    members
}

/// The member with the digits `a` above `bottom` bits, a star at digit `p`
/// and the stars `others`.
fn paired(bottom: u32, a: u32, p: u32, others: u32) -> Subcube {
    Subcube { low: a << bottom, stars: others | 1 << (bottom + p) }
}
