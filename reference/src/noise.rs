//! Frames for random logs: right ones, and such as are refused with 3, 4 or 5.

use crate::rng::Rng;

pub type Frame = Vec<u8>;

/// A frame with a right length field.
pub fn frame(kind: u16, fields: &[u8]) -> Frame {
    let length = 4 + fields.len() as u16;
    [&length.to_le_bytes(), &kind.to_le_bytes(), fields].concat()
}

pub fn report(kind: u16, node: u32) -> Frame {
    frame(kind, &(node as u16).to_le_bytes())
}

/// A frame of any kind and size, seldom right; its length field is.
pub fn malformed(rng: &mut Rng) -> Frame {
    let known = [0x0101, 0x0102, 0x0103, 0x0201, 0x0202, 0x0203, 0x0204];
    let near = [0, 1, 0x0100, 0x0104, 0x0200, 0x0205, 0x0301, 0x8001, 0x8003, 0xffff];
    let kind = match rng.below(8) {
        0..4 => rng.pick(&known),
        4..7 => rng.pick(&near),
        _ => rng.number() as u16,
    };
    let size = match rng.below(64) {
        0 => rng.below(4000),
        1 if rng.one_in(16) => 65531,
        2..20 => 0,
        _ => rng.below(8),
    };
    let fields: Vec<u8> = (0..size).map(|_| rng.number() as u8).collect();
    frame(kind, &fields)
}

/// Bytes that end a log: one alone, a length under 4 or past the end.
pub fn broken(rng: &mut Rng) -> Frame {
    let length = match rng.below(3) {
        0 => return vec![rng.number() as u8],
        1 => rng.below(4) as u16,
        _ => rng.pick(&[7, 9, 0x0100, 65535]),
    };
    let mut bytes = frame(0x0101, &[0, 0]);
    bytes[..2].copy_from_slice(&length.to_le_bytes());
    bytes
}
