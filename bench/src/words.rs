//! Which labels are free, as bits of words, and what is done to all of them at once.

use crate::rows::Record;
use cube_reference::record::{self, CONDITIONS, HOLDERS};
use std::array::from_fn;
use std::ops::Range;

/// The bits of a word whose place has a 0 as its digit i.
const ZERO_DIGIT: [u64; 6] = [
    0x5555_5555_5555_5555,
    0x3333_3333_3333_3333,
    0x0f0f_0f0f_0f0f_0f0f,
    0x00ff_00ff_00ff_00ff,
    0x0000_ffff_0000_ffff,
    0x0000_0000_ffff_ffff,
];

/// Flags of 64 L labels: that of label x is bit x % 64 of word x / 64.
#[derive(Clone, Copy)]
pub struct Labels<const L: usize>([u64; L]);

impl Labels<16> {
    /// The labels that are free by a record of n = 10: good, and with one of
    /// these holders.
    pub fn free<const H: usize>(record: &Record, holders: [u16; H]) -> Labels<16> {
        let (of_nodes, conditions) = (&record[HOLDERS..], &record[CONDITIONS..]);
        let words = from_fn(|w| free_nodes(&of_nodes[128 * w..], &conditions[64 * w..], holders));
        let mut labels = Labels(words);
        labels.move_digits(record::map(record));
        labels
    }

    /// The blocks of 2^d labels, d from 0, that are free and in no larger such
    /// block: how many they are, and the lowest label of the first among the
    /// smallest with d at least k.
    pub fn best_fit(mut self, k: u32) -> (u32, Option<u32>) {
        let (mut any, mut best) = ([0; 16], None);
        for i in 0..6 {
            let maximal = self.join(i);
            any.iter_mut().zip(maximal.0).for_each(|(any, word)| *any |= word);
            if i >= k {
                best = best.or_else(|| maximal.first());
            }
        }
        let mut count = any.iter().map(|word| word.count_ones()).sum();
        let mut words = Labels([(0..16).fold(0, |all, w| all | (self.0[w] & 1) << w)]);
        for i in 0..4 {
            let maximal = words.join(i);
            count += maximal.0[0].count_ones();
            if i + 6 >= k {
                best = best.or_else(|| Some(64 * maximal.first()?));
            }
        }
        count += words.0[0].count_ones();
        (count, best.or_else(|| words.first()))
    }

    /// From nodes to labels: digit i goes to the place that the map gives it.
    fn move_digits(&mut self, mut map: [u8; 10]) {
        for i in 0..10 {
            while usize::from(map[i]) != i + 1 {
                let j = usize::from(map[i]) - 1;
                self.exchange(i.min(j), i.max(j));
                map.swap(i, j);
            }
        }
    }

    /// Exchanges two digits, i below j, of every label.
    fn exchange(&mut self, i: usize, j: usize) {
        let words = &mut self.0;
        if j < 6 {
            let (apart, lower) = ((1 << j) - (1 << i), !ZERO_DIGIT[i] & ZERO_DIGIT[j]);
            for word in words {
                let differ = (*word >> apart ^ *word) & lower;
                *word ^= differ | differ << apart;
            }
            return;
        }
        let above = 1 << (j - 6);
        for w in (0..16).filter(|w| w & above == 0) {
            if i < 6 {
                let differ = (words[w] >> (1 << i) ^ words[w + above]) & ZERO_DIGIT[i];
                words[w + above] ^= differ;
                words[w] ^= differ << (1 << i);
            } else if w >> (i - 6) & 1 == 1 {
                words.swap(w, w + above - (1 << (i - 6)));
            }
        }
    }
}

impl Labels<1> {
    /// Both halves of 2^(digits + 1) labels; of more, all flags are 0.
    pub fn fold_word(&mut self, digits: u32) {
        self.0[0] &= self.0[0] >> (1 << digits);
    }
}

impl<const L: usize> Labels<L> {
    /// Both halves across the highest digit, H being half of L.
    pub fn halves<const H: usize>(&self) -> Labels<H> {
        Labels(from_fn(|w| self.0[w] & self.0[w + H]))
    }

    /// From the free blocks of 2^i labels, i below 6, to those of 2^(i+1), each
    /// with the flag of its lowest label: those that are in none of these.
    fn join(&mut self, i: u32) -> Labels<L> {
        let blocks = self.0;
        self.0 = blocks.map(|w| w & w >> (1 << i) & ZERO_DIGIT[i as usize]);
        Labels(from_fn(|w| blocks[w] & !(self.0[w] | self.0[w] << (1 << i))))
    }

    /// Which words are all free, as one word.
    fn words(&self) -> Labels<1> {
        Labels([(0..L).fold(0, |full, w| full | u64::from(self.0[w] == !0) << w)])
    }

    /// Which blocks of 2^low labels are free, low below 6: the flag of a block
    /// is that of its lowest label, the others are 0.
    fn blocks(&self, low: u32) -> Labels<L> {
        let mut words = self.0;
        let mut lowest = !0;
        for i in 0..low {
            words.iter_mut().for_each(|w| *w &= *w >> (1 << i));
            lowest &= ZERO_DIGIT[i as usize];
        }
        Labels(words.map(|w| w & lowest))
    }

    /// The least block of 2^low labels that is free, counted from 0.
    pub fn first_block(&self, low: u32) -> Option<u32> {
        if low < 6 {
            Some(self.blocks(low).first()? >> low)
        } else {
            self.words().first_block(low - 6)
        }
    }

    /// The least block of 2^low labels that is free together with that one
    /// place up, for some place of these at which it has a 0; and the least
    /// such place.
    pub fn first_pair(&self, low: u32, places: Range<u32>) -> Option<(u32, u32)> {
        if low >= 6 {
            return self.words().first_pair(low - 6, places);
        }
        let blocks = self.blocks(low);
        let x = blocks.paired(low + places.start..low + places.end).first()?;
        let is_paired = |p: &u32| x >> (low + p) & 1 == 0 && blocks.has(x | 1 << (low + p));
        Some((x >> low, places.clone().find(is_paired)?))
    }

    /// Those that are set and whose partner at one of these places is, where
    /// they have a 0.
    fn paired(&self, places: Range<u32>) -> Labels<L> {
        let mut any = [0; L];
        for i in places {
            if i < 6 {
                for (any, w) in any.iter_mut().zip(&self.0) {
                    *any |= w & w >> (1 << i) & ZERO_DIGIT[i as usize];
                }
                continue;
            }
            let half = 1 << (i - 6);
            for (any, two) in any.chunks_exact_mut(2 * half).zip(self.0.chunks_exact(2 * half)) {
                let (lower, upper) = two.split_at(half);
                for (any, (l, u)) in any.iter_mut().zip(lower.iter().zip(upper)) {
                    *any |= l & u;
                }
            }
        }
        Labels(any)
    }

    fn has(&self, x: u32) -> bool {
        self.0[x as usize / 64] >> (x % 64) & 1 == 1
    }

    /// The least that is set.
    fn first(&self) -> Option<u32> {
        let w = self.0.iter().position(|word| *word != 0)?;
        Some(64 * w as u32 + self.0[w].trailing_zeros())
    }
}

/// The free ones of 64 nodes, by their holders and conditions: of 0, 1 and 2
/// only 'good' is odd. Eight nodes at a time, a byte each: the product has the
/// lowest bit of byte i as bit i of its highest byte.
fn free_nodes<const H: usize>(holders: &[u8], conditions: &[u8], wanted: [u16; H]) -> u64 {
    let mut unheld = [0; 64];
    for wanted in wanted {
        for (unheld, holder) in unheld.iter_mut().zip(holders.chunks_exact(2)) {
            *unheld |= u8::from(u16::from_le_bytes([holder[0], holder[1]]) == wanted);
        }
    }
    let eight = |bytes: &[u8], i: usize| u64::from_le_bytes(from_fn(|j| bytes[8 * i + j]));
    (0..8).fold(0, |word, i| {
        let free = eight(&unheld, i) & eight(conditions, i);
        word | free.wrapping_mul(0x0102_0408_1020_4080) >> 56 << (8 * i)
    })
}
