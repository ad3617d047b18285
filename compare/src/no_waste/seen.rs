//! What the lists were, and whether each sort came often enough.

use std::fmt::{self, Display};

use super::dimensions::ORDERS;

/// So often at least is each sort of list, and of request, to come at every n
/// where it can.
const LIST: u64 = 5;
const REQUEST: u64 = 20;

/// Each sort of list in words, and the least n at which it can come.
pub const LISTS: [(&str, usize); 6] = [
    ("with every node good", 0),
    ("with a silent node", 0),
    ("with a faulty node", 0),
    ("under a map that isn't the identity", 2),
    ("under one that a relabel set", 2),
    ("in which first fit would refuse what is free", 2),
];

/// Each sort of request, likewise. Where one is granted the last free nodes, its list has
/// filled the cube.
const REQUESTS: [(&str, usize); 4] = [
    ("granted", 0),
    ("granted the last free nodes", 0),
    ("refused with nodes free", 1),
    ("refused with none free", 0),
];

/// How many lists there were, and how often each sort came at each n.
#[derive(Default)]
pub struct Seen {
    all: u64,
    lists: [[u64; LISTS.len()]; 11],
    orders: [[u64; ORDERS.len()]; 11],
    requests: [[u64; REQUESTS.len()]; 11],
}

impl Seen {
    /// Counts a list by its sorts and by the order of its dimensions.
    pub fn add_list(&mut self, n: u32, is: [bool; LISTS.len()], order: [bool; ORDERS.len()]) {
        self.all += 1;
        add(&mut self.lists[n as usize], is);
        add(&mut self.orders[n as usize], order);
    }

    /// Counts a request by the free nodes before and after it.
    pub fn add_request(&mut self, n: u32, left: u32, after: u32) {
        let is_granted = after < left;
        let is = [is_granted, is_granted && after == 0, !is_granted && left > 0, left == 0];
        add(&mut self.requests[n as usize], is);
    }

    /// What came too seldom, in words.
    pub fn rare(&self) -> Option<String> {
        let lists = || rare(&LISTS, &self.lists, LIST).map(|what| format!("lists {what}"));
        let orders = || rare(&ORDERS, &self.orders, LIST).map(|what| format!("sizes {what}"));
        let requests = || rare(&REQUESTS, &self.requests, REQUEST);
        let what = lists().or_else(orders).or_else(requests)?;
        Some(format!("no waste, {what}"))
    }
}

fn add<const N: usize>(counts: &mut [u64; N], is: [bool; N]) {
    counts.iter_mut().zip(is).for_each(|(count, is)| *count += u64::from(is));
}

/// The first sort that came too seldom at an n where it can.
fn rare<const N: usize>(
    sorts: &[(&str, usize); N],
    counts: &[[u64; N]; 11],
    least: u64,
) -> Option<String> {
    for (n, counts) in counts.iter().enumerate() {
        let mut rare = sorts.iter().zip(counts).filter(|(s, count)| n >= s.1 && **count < least);
        if let Some(((sort, _), count)) = rare.next() {
            return Some(format!("{sort}, at n {n}: {count}"));
        }
    }
    None
}

impl Display for Seen {
    fn fmt(&self, to: &mut fmt::Formatter) -> fmt::Result {
        write!(to, "no waste: {} lists, requests", self.all)?;
        list(to, &REQUESTS, &self.requests)?;
        write!(to, "; lists")?;
        list(to, &LISTS, &self.lists)?;
        write!(to, "; their sizes")?;
        list(to, &ORDERS, &self.orders)
    }
}

/// How often each sort came, the n together.
fn list<const N: usize>(
    to: &mut fmt::Formatter,
    sorts: &[(&str, usize); N],
    counts: &[[u64; N]; 11],
) -> fmt::Result {
    let sum = |place: usize| counts.iter().map(|counts| counts[place]).sum::<u64>();
    let words: Vec<String> =
        (0..N).map(|place| format!("{} {}", sum(place), sorts[place].0)).collect();
    write!(to, " {}", words.join(", "))
}
