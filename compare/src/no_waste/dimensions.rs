//! The dimensions that a list asks for.

use cube_reference::rng::Rng;

/// Each order of them in words, and the least n at which it can come.
pub const ORDERS: [(&str, usize); 5] = [
    ("ascending", 1),
    ("descending", 1),
    ("neither", 1),
    ("of one node each", 0),
    ("of one larger size", 1),
];

/// Dimensions in some order whose sizes come to a part of the cube or to more
/// than it.
pub fn any(rng: &mut Rng, n: u32) -> Vec<u8> {
    let (order, top) = (rng.below(5), rng.below(n + 1));
    let (least, top) = match order {
        0..3 => (0, top),
        3 => (0, 0),
        _ => (top, top),
    };
    let sum = rng.below((3 << n) / 2 + 6);
    let mut drawn = drawn(rng, least, top, sum);
    match order {
        0 => drawn.sort_unstable(),
        1 => drawn.sort_unstable_by_key(|k| n as u8 - k),
        _ => {}
    }
    drawn
}

/// Dimensions from `least` to `top`, until the sizes come to `sum`.
fn drawn(rng: &mut Rng, least: u32, top: u32, sum: u32) -> Vec<u8> {
    let (mut drawn, mut size) = (Vec::new(), 0);
    while size < sum {
        let k = least + rng.below(top - least + 1);
        drawn.push(k as u8);
        size += 1 << k;
    }
    drawn
}

/// These, then each k from n down to 0, which takes what is left whatever it is,
/// and 0 once more.
pub fn filling(drawn: &[u8], n: u32) -> Vec<u8> {
    drawn.iter().copied().chain((0..=n as u8).rev()).chain([0]).collect()
}

/// Of which orders these are.
pub fn orders(drawn: &[u8]) -> [bool; ORDERS.len()] {
    let (rises, falls) = (drawn.is_sorted(), drawn.is_sorted_by(|one, next| one >= next));
    let is_one = rises && falls && drawn.len() > 1;
    [
        rises && !falls,
        falls && !rises,
        !rises && !falls,
        is_one && drawn[0] == 0,
        is_one && drawn[0] > 0,
    ]
}
