//! The subcubes that are held after a list of calls: those that its first record
//! holds, and then by its replies alone. By document 02, (f), the record's star
//! bits are theirs.

use std::collections::BTreeMap;

use crate::placed::vertices;
use crate::support::*;

/// Lowest node and star bits of what each job was last granted, if it hasn't
/// released it since.
#[derive(Debug, PartialEq)]
pub struct Held(BTreeMap<u16, (u16, u16)>);

impl Held {
    /// What a record that loads holds: it counts as granted before the list.
    pub fn of(record: &[u8]) -> Held {
        let mut held = BTreeMap::new();
        for node in (0..1024).rev() {
            let place = 2 * usize::from(node);
            held.insert(at(record, HOLDERS + place), (node, at(record, STARS + place)));
        }
        held.remove(&0);
        Held(held)
    }

    /// Follows an accepted call. Nodes that it grants were good before it, by
    /// these conditions; of those held from before the list that isn't said.
    pub fn add(&mut self, frame: &[u8], reply: &[u8], conditions: &[u8]) {
        if at(reply, 2) == 0x8001 {
            let (lowest, stars) = (at(reply, 6), at(reply, 8));
            let were_good = vertices(lowest, stars).all(|node| conditions[node] == 1);
            assert!(were_good, "granted {lowest}/{stars}");
            self.0.insert(at(reply, 4), (lowest, stars));
        } else if at(frame, 2) == 0x0202 {
            self.0.remove(&at(frame, 4));
        }
    }

    /// Each node of a held subcube has its job as holder and carries its star
    /// bits, so that they are disjoint; their sizes add up to the held nodes.
    pub fn stands_in(&self, record: &[u8]) {
        let mut size = 0;
        for (job, (lowest, stars)) in &self.0 {
            for node in vertices(*lowest, *stars) {
                let fields = [HOLDERS, STARS].map(|part| at(record, part + 2 * node));
                assert_eq!(fields, [*job, *stars], "node {node}, held are {:?}", self.0);
                size += 1;
            }
        }
        let held = (0..1024).filter(|node| at(record, HOLDERS + 2 * node) != 0).count();
        assert_eq!(size, held, "held are {:?}", self.0);
    }
}
