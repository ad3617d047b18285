//! Requests of every strategy and k under patterns of free nodes. A pattern
//! that nobody timed is where a slow case hides, so they vary what is free:
//! none, nearly all, half; members that come early, late or never.

use crate::rows::{Record, Row};
use cube_proved::frame::{release, request};
use cube_proved::STRATEGIES;
use cube_reference::family::{family, Subcube, BEST_FIT, BUDDY};
use cube_reference::record::{holder, set_condition, set_holder, set_map, set_stars, FAULTY, GOOD};
use cube_reference::rng::Rng;
use cube_reference::session::fresh;
use cube_reference::{node, relabel, Map, IDENTITY};
use Other::{Faulty, Held, Silent};

/// A request, with the last member of its family, and a cube that jobs have
/// used by the same strategy.
pub struct Request<'a> {
    pub n: u32,
    pub k: u32,
    last: Subcube,
    used: &'a Record,
}

/// What a node that isn't free is.
#[derive(Clone, Copy)]
pub enum Other {
    Silent,
    Faulty,
    Held,
}

/// A name, which labels are free for a request, and what the others are.
#[derive(Clone, Copy)]
pub struct Pattern {
    pub name: &'static str,
    free: fn(&Request, u32) -> bool,
    other: Other,
}

const fn pattern(name: &'static str, other: Other, free: fn(&Request, u32) -> bool) -> Pattern {
    Pattern { name, free, other }
}

impl Request<'_> {
    pub fn new(n: u32, k: u32, strategy: usize, used: &Record) -> Request<'_> {
        let of = if strategy as u8 == BEST_FIT { BUDDY } else { strategy as u8 };
        let last = *family(of, n, k).last().expect("no family is empty");
        Request { n, k, last, used }
    }

    /// The stars that a tree's member has beside its highest.
    pub fn low(&self) -> u32 {
        self.k.saturating_sub(1)
    }

    /// Whether a label is in the upper half.
    fn upper(&self, x: u32) -> bool {
        x >= 1 << self.n >> 1
    }

    /// In which eighth it is, counted from 0.
    fn eighth(&self, x: u32) -> u32 {
        (8 * x) >> self.n
    }

    /// Whether it is in the last of the blocks of 2^k labels.
    fn in_last_block(&self, x: u32) -> bool {
        x >> self.k == ones(self.n - self.k)
    }

    /// Whether it is in the last four of them.
    fn in_last_four(&self, x: u32) -> bool {
        self.n > self.k + 2 && x >> (self.k + 2) == ones(self.n - self.k - 2)
    }

    /// Whether it is in the family's last member.
    pub fn in_last(&self, x: u32) -> bool {
        x & !self.last.stars == self.last.low
    }
}

/// A cube after some hundred requests and releases, about half of it held.
pub fn used(n: u32, strategy: usize) -> Record {
    let (mut record, mut rng) = (fresh(n), Rng::new(22));
    (0..1 << n).for_each(|node| set_condition(&mut record, node, GOOD));
    for job in 1..=300 {
        let k = rng.below(n.max(2) - 1) as u8;
        cube_reference::call(&mut record, &request(job, k, strategy as u8), &mut [0; 12]);
        while 2 * (0..1 << n).filter(|node| holder(&record, *node) != 0).count() > 1 << n {
            let job = 1 + rng.below(job.into()) as u16;
            cube_reference::call(&mut record, &release(job), &mut [0; 12]);
        }
    }
    record
}

fn ones(count: u32) -> u32 {
    (1 << count) - 1
}

/// Whether a label is the last of a block of 2^low.
fn ends(x: u32, low: u32) -> bool {
    x & ones(low) == ones(low)
}

/// Whether the one-bits are even in number: no two such are neighbours.
pub fn is_even(x: u32) -> bool {
    x.count_ones().is_multiple_of(2)
}

/// The same labels always, about so many of a hundred.
fn chosen(x: u32, percent: u32) -> bool {
    Rng::new(u64::from(x) << 32 | 22).below(100) < percent
}

/// Patterns in which at most a few labels are not free.
pub const SILENT: [Pattern; 4] = [
    pattern("all free", Silent, |_, _| true),
    pattern("first node silent", Silent, |_, x| x != 0),
    pattern("middle node silent", Silent, |r, x| x != 1 << r.n >> 1),
    pattern("last node silent", Silent, |r, x| x + 1 != 1 << r.n),
];

/// By the one-bits: no subcube of k has all of its labels among those with
/// fewer than k, nor among those with more than n - k; with one more, some do.
pub const WEIGHTS: [Pattern; 5] = [
    pattern("bad from k one-bits up", Faulty, |r, x| x.count_ones() < r.k),
    pattern("bad above k one-bits", Faulty, |r, x| x.count_ones() <= r.k),
    pattern("bad up to n - k one-bits", Faulty, |r, x| x.count_ones() > r.n - r.k),
    pattern("bad below n - k one-bits", Faulty, |r, x| x.count_ones() >= r.n - r.k),
    pattern("half free, no neighbours", Silent, |_, x| is_even(x)),
];

/// By blocks of k or of k - 1 low stars: tests that fail at the last label,
/// at the first, or only for the partner of a block that is free.
pub const BLOCKS: [Pattern; 5] = [
    pattern("first of each 2^k bad", Silent, |r, x| x & ones(r.k) != 0),
    pattern("last of each 2^k bad", Silent, |r, x| !ends(x, r.k)),
    pattern("last of each 2^k bad but the last member", Silent, |r, x| {
        !ends(x, r.k) || r.in_last(x)
    }),
    pattern("every other 2^(k-1) bad", Faulty, |r, x| is_even(x >> r.low())),
    pattern("last of every other 2^(k-1) bad", Faulty, |r, x| {
        is_even(x >> r.low()) || !ends(x, r.low())
    }),
];

/// Patterns in which the free members come late, or only the first are.
pub const LATE: [Pattern; 6] = [
    pattern("none free", Silent, |_, _| false),
    pattern("first half bad", Faulty, |r, x| r.upper(x)),
    pattern("second half bad", Faulty, |r, x| !r.upper(x)),
    pattern("only the last label free", Silent, |r, x| x + 1 == 1 << r.n),
    pattern("only the last member free", Silent, |r, x| r.in_last(x)),
    pattern("bad from k one-bits up but the last member", Faulty, |r, x| {
        x.count_ones() < r.k || r.in_last(x)
    }),
];

/// Even and uneven mixtures.
pub const MIXED: [Pattern; 9] = [
    pattern("every 8th bad, from 0", Silent, |_, x| x % 8 != 0),
    pattern("every 8th bad, from 7", Silent, |_, x| x % 8 != 7),
    pattern("2 % bad", Silent, |_, x| !chosen(x, 2)),
    pattern("10 % bad", Silent, |_, x| !chosen(x, 10)),
    pattern("30 % bad", Faulty, |_, x| !chosen(x, 30)),
    pattern("50 % bad", Faulty, |_, x| !chosen(x, 50)),
    pattern("half held, by blocks", Held, |r, x| x >> (r.n / 2) & 1 == 1),
    pattern("half held, by pairs", Held, |_, x| chosen(x / 2, 50)),
    pattern("half held, by a session", Held, |r, x| holder(r.used, x) == 0),
];

/// By the sizes of the free blocks that are in no larger one: as many as there
/// can be; the one that best fit takes is the last, behind larger ones or
/// smaller ones; or all sizes, the small ones first or last.
pub const SIZES: [Pattern; 8] = [
    pattern("every other bad, from 0", Silent, |_, x| x % 2 == 1),
    pattern("every other bad, from 1", Faulty, |_, x| x.is_multiple_of(2)),
    pattern("blocks of 2^(k+1), the last of 2^k", Silent, |r, x| {
        r.in_last_block(x) || (x >> (r.k + 1)).is_multiple_of(2) && !r.in_last_four(x)
    }),
    pattern("blocks of 2^(k-1), the last of 2^k", Silent, |r, x| {
        r.in_last_block(x) || (x >> r.low()).is_multiple_of(2)
    }),
    pattern("blocks of 2^(k+1), the first of 2^k", Faulty, |r, x| {
        (x >> (r.k + 1)).is_multiple_of(2) && x >> r.k != 1
    }),
    pattern("blocks of 1 to 128, half bad", Faulty, |r, x| chosen(x >> r.eighth(x), 50)),
    pattern("blocks of 128 to 1, half bad", Faulty, |r, x| chosen(x >> (7 - r.eighth(x)), 50)),
    pattern("blocks of 128 to 1, half held", Held, |r, x| {
        chosen(x >> (7 - r.eighth(x)).max(1), 50)
    }),
];

/// A record with the labels of a pattern free; a held one has the job and the
/// star bits of its pair of neighbours.
pub fn record(request: &Request, pattern: &Pattern, map: &Map) -> Record {
    let mut record = fresh(request.n);
    set_map(&mut record, map);
    let pair = node(map, 1) as u16;
    for x in 0..1 << request.n {
        let node = node(map, x);
        let free = (pattern.free)(request, x);
        match pattern.other {
            Silent if !free => {}
            Faulty if !free => set_condition(&mut record, node, FAULTY),
            _ => set_condition(&mut record, node, GOOD),
        }
        if matches!(pattern.other, Held) && !free {
            set_holder(&mut record, node, 100 + (x / 2) as u16);
            set_stars(&mut record, node, pair);
        }
    }
    record
}

/// Requests of every strategy and k under a pattern, with a used cube for each
/// strategy; the name says what they get by the second program.
fn rows(n: u32, pattern: &Pattern, map: &Map, used: &[Record]) -> Vec<Row> {
    let all = (0..STRATEGIES.len()).flat_map(|s| (0..=n).map(move |k| (s, k)));
    let row = |(strategy, k)| {
        let start = record(&Request::new(n, k, strategy, &used[strategy]), pattern, map);
        let call = request(7, k as u8, strategy as u8);
        let outcome = match cube_reference::call(&mut { start }, &call, &mut [0; 12]) {
            0 => "granted",
            14 => "refused",
            number => panic!("{}: {number}", pattern.name),
        };
        let relabelled = if *map == IDENTITY { "" } else { ", relabelled" };
        let request = format!("{}, k {k}, {outcome}", STRATEGIES[strategy]);
        let name = format!("{}{relabelled}, {request}", pattern.name);
        Row { name, n, starts: vec![start], call }
    };
    all.map(row).collect()
}

/// The rows of patterns at one n under one map, each with a title.
fn titled(n: u32, patterns: Vec<Pattern>, map: Map) -> impl Iterator<Item = (String, Vec<Row>)> {
    let used: Vec<_> = (0..STRATEGIES.len()).map(|strategy| used(n, strategy)).collect();
    patterns.into_iter().map(move |p| {
        let relabelled = if map == IDENTITY { "" } else { ", relabelled" };
        (format!("n {n}, {}{relabelled}", p.name), rows(n, &p, &map, &used))
    })
}

/// Every pattern, on a cube as it was set up.
pub fn plain(n: u32) -> impl Iterator<Item = (String, Vec<Row>)> {
    titled(n, [&SILENT[..], &WEIGHTS, &BLOCKS, &LATE, &MIXED, &SIZES].concat(), IDENTITY)
}

/// Some of each sort, with every other direction mapped to the lower ones.
pub fn relabelled(n: u32) -> impl Iterator<Item = (String, Vec<Row>)> {
    let (map, _) = relabel(n, [0, 0x2aa % (1 << n)]);
    let some = [SILENT[3], WEIGHTS[0], WEIGHTS[3], BLOCKS[2], LATE[4], MIXED[3], MIXED[8]];
    titled(n, [&some[..], &SIZES[1..3], &SIZES[6..7]].concat(), map)
}

/// Some of each sort, on a smaller cube.
pub fn small(n: u32) -> impl Iterator<Item = (String, Vec<Row>)> {
    let some = [&SILENT[..], &WEIGHTS, &BLOCKS[1..], &LATE[5..], &MIXED[2..4], &MIXED[7..], &SIZES];
    titled(n, some.concat(), IDENTITY)
}
