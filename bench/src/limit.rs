//! The bit-parallel limit: how fast a request or a growth can be answered from a
//! record if 1024 flags are sixteen words and every star is an 'and' with a
//! shift. It is not proved, and answers for all strategies but Gray.
//!
//! It reads conditions, holders and the map from the record, finds the first
//! free member and its place, or for best fit the block and how many there are,
//! or that there is none, and writes the reply and
//! the holders and star bits of the record. It takes record and frame for right
//! ones: it makes no test of refusals before 14.

use crate::given::{clear, give};
use crate::rows::Record;
use crate::words::Labels;
use cube_reference::{node, record};
use std::ops::Range;

/// The first byte of a growth's kind; a request's is another.
const GROW: u8 = 0x04;

/// A walk's answer, on labels: the member with its place, or the count.
type Answer = Result<Found, u32>;

struct Found {
    low: u32,
    stars: u32,
    tried: u32,
}

/// Answers a request or a growth at n = 10 as `cube_call` does, but for what is
/// said above.
pub fn call(record: &mut [u8], frame: &[u8], reply: &mut [u8]) -> u32 {
    let record: &mut Record = record.try_into().expect("a record");
    let job = u16::from_le_bytes([frame[4], frame[5]]);
    let (k, strategy) = (u32::from(frame[6]), frame[7]);
    let free = match frame[2] {
        GROW => Labels::free(record, [0, job]),
        _ => Labels::free(record, [0]),
    };
    let answer = match strategy {
        4 => best_fit(free, k),
        _ if k == 0 => buddy(&free, 0),
        0 => buddy(&free, k),
        2 => tree(&free, k),
        _ => extended(&free, k),
    };
    match answer {
        Ok(Found { low, stars, tried }) => {
            let map = record::map(record);
            let (low, stars) = (node(&map, low) as u16, node(&map, stars) as u16);
            if frame[2] == GROW {
                clear(record, job);
            }
            give(record, job, low, stars);
            write(reply, [12, 0x8001, job, low, stars, tried as u16]);
            0
        }
        Err(count) => {
            write(reply, [8, 0x8002, 14, count as u16]);
            14
        }
    }
}

fn write<const N: usize>(reply: &mut [u8], fields: [u16; N]) {
    for (place, field) in reply.chunks_exact_mut(2).zip(fields) {
        place.copy_from_slice(&field.to_le_bytes());
    }
}

fn ones(count: u32) -> u32 {
    (1 << count) - 1
}

fn buddy(free: &Labels<16>, k: u32) -> Answer {
    let alpha = free.first_block(k).ok_or(1u32 << (10 - k))?;
    Ok(Found { low: alpha << k, stars: ones(k), tried: alpha + 1 })
}

fn best_fit(free: Labels<16>, k: u32) -> Answer {
    let (tried, best) = free.best_fit(k);
    Ok(Found { low: best.ok_or(tried)?, stars: ones(k), tried })
}

fn tree(free: &Labels<16>, k: u32) -> Answer {
    let (low, places) = (k - 1, 0..11 - k);
    let (alpha, p) = free.first_pair(low, places.clone()).ok_or((11 - k) << (10 - k))?;
    let tried = zeros_before(alpha, places) + zeros(alpha, 0..p) + 1;
    Ok(Found { low: alpha << low, stars: ones(low) | 1 << (low + p), tried })
}

fn extended(free: &Labels<16>, k: u32) -> Answer {
    let tried = match tree(free, k) {
        Err(count) => count,
        found => return found,
    };
    let (alpha, d, p) = first_further(free, k).ok_or((k * (10 - k) + 1) << (10 - k))?;
    let (low, places) = (k - 1 - d, 1..11 - k);
    let rows = (k - 1) * zeros_before(alpha, places.clone()) + (d - 1) * zeros(alpha, places);
    Ok(Found {
        low: alpha << low,
        stars: ones(d) << (10 - d) | ones(low) | 1 << (low + p),
        tried: tried + rows + zeros(alpha, 1..p) + 1,
    })
}

/// The least α, d and p of the members beyond the tree's. Those of one d are
/// pairs among the labels that are free together with all that differ from
/// them in the top d bits.
fn first_further(free: &Labels<16>, k: u32) -> Option<(u32, u32, u32)> {
    if k == 10 {
        return None;
    }
    let eight: Labels<8> = free.halves();
    let four: Labels<4> = eight.halves();
    let two: Labels<2> = four.halves();
    let mut one: Labels<1> = two.halves();
    let mut least = None;
    for d in 1..k {
        let (low, places) = (k - 1 - d, 1..11 - k);
        let found = match d {
            1 => eight.first_pair(low, places),
            2 => four.first_pair(low, places),
            3 => two.first_pair(low, places),
            4 => one.first_pair(low, places),
            _ => {
                one.fold_word(10 - d);
                one.first_pair(low, places)
            }
        };
        if let Some((alpha, p)) = found {
            least = least.or(Some((alpha, d, p))).min(Some((alpha, d, p)));
        }
    }
    least
}

/// How many digits at these places are 0.
fn zeros(alpha: u32, places: Range<u32>) -> u32 {
    places.filter(|p| alpha >> p & 1 == 0).count() as u32
}

/// The same of all numbers below α together.
fn zeros_before(alpha: u32, places: Range<u32>) -> u32 {
    places.map(|p| (alpha >> (p + 1) << p) + (alpha & ones(p + 1)).min(1 << p)).sum()
}

#[cfg(test)]
mod tests {
    use crate::rows::Record;
    use cube_proved::frame::{grow, request};
    use cube_reference::record::{set_condition, set_holder, set_map, set_stars};
    use cube_reference::rng::Rng;
    use cube_reference::session::fresh;
    use cube_reference::IDENTITY;

    /// A record with any map, and with one node in so many not free.
    fn record(rng: &mut Rng, odds: u32) -> Record {
        let mut record = fresh(10);
        let mut map = IDENTITY;
        (1..10).for_each(|i| map.swap(i, rng.below(i as u32 + 1) as usize));
        set_map(&mut record, &map);
        for node in 0..1024 {
            set_condition(&mut record, node, 1);
            if rng.one_in(odds) {
                set_condition(&mut record, node, rng.below(3) as u8);
                set_holder(&mut record, node, 256 << rng.below(3));
                set_stars(&mut record, node, rng.number() as u16);
            }
        }
        record
    }

    /// Whether the limit had to answer this, and did as the second program does.
    fn answers(record: Record, frame: &[u8]) -> bool {
        let [mut ours, mut theirs] = [(record, [0; 12]); 2];
        let number = cube_reference::call(&mut theirs.0, frame, &mut theirs.1);
        if ![0, 14].contains(&number) {
            return false;
        }
        assert_eq!(super::call(&mut ours.0, frame, &mut ours.1), number);
        assert_eq!(ours, theirs, "{frame:?}, {record:?}");
        true
    }

    #[test]
    fn answers_as_the_second_program_does() {
        let mut rng = Rng::new(11);
        let mut grown = 0;
        for odds in [1, 2, 3, 4, 6, 10, 20, 50, 100, 200, 500, 1000, 5000] {
            for _ in 0..20 {
                let record = record(&mut rng, odds);
                for (k, strategy) in (0..=10).flat_map(|k| [0, 2, 3, 4].map(|s| (k, s))) {
                    assert!(answers(record, &request(7, k, strategy)));
                    grown += u32::from(answers(record, &grow(256, k, strategy)));
                }
            }
        }
        assert!(grown > 2000, "only {grown} growths");
    }
}
