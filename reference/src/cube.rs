//! Directions, labels and relabelling: document 01, "Labels".

/// The largest dimension of a cube.
pub const MAX_N: u32 = 10;

/// The new direction of each direction: entry i - 1 is for direction i.
/// A map permutes 1 to 10, and above n each direction is its own.
pub type Map = [u8; MAX_N as usize];

/// Each direction maps to itself.
pub const IDENTITY: Map = [1, 2, 3, 4, 5, 6, 7, 8, 9, 10];

/// The lowest `count` bits.
pub(crate) fn ones(count: u32) -> u32 {
    (1 << count) - 1
}

/// The label of a node: each bit of its number moved by the map.
pub fn label(map: &Map, node: u32) -> u32 {
    let mut label = 0;
    for (bit, new) in map.iter().enumerate() {
        label |= (node >> bit & 1) << (new - 1);
    }
    label
}

/// The node that has a label: each bit moved back.
pub fn node(map: &Map, label: u32) -> u32 {
    let mut node = 0;
    for (bit, new) in map.iter().enumerate() {
        node |= (label >> (new - 1) & 1) << bit;
    }
    node
}

/// `node` of one map for many labels: the parts that the lowest five bits of
/// a label and its other five give.
pub(crate) struct Nodes {
    lowest: [u16; 32],
    others: [u16; 32],
}

impl Nodes {
    pub(crate) fn new(map: &Map) -> Nodes {
        Nodes { lowest: parts(map, 0), others: parts(map, 5) }
    }

    pub(crate) fn node(&self, label: u32) -> u32 {
        let (low, high) = (label as usize % 32, label as usize / 32 % 32);
        u32::from(self.lowest[low] | self.others[high])
    }
}

/// The parts that the five bits of a label from `first` give.
fn parts(map: &Map, first: u32) -> [u16; 32] {
    let mut parts = [0; 32];
    for bit in 0..5 {
        let moved = node(map, 1 << (first + bit)) as u16;
        for rest in 0..1 << bit {
            parts[1 << bit | rest] = moved | parts[rest];
        }
    }
    parts
}

/// The map that a relabel gives when these nodes aren't good, and the size of
/// D.
pub fn relabel(n: u32, not_good: impl IntoIterator<Item = u32>) -> (Map, u32) {
    let d = differing(not_good);
    let size = d.count_ones();
    if size == 0 || size == n {
        return (IDENTITY, size);
    }
    let mut map = IDENTITY;
    let (mut inside, mut outside) = (1, size as u8 + 1);
    for (bit, new) in map.iter_mut().enumerate().take(n as usize) {
        let next = if d >> bit & 1 == 1 { &mut inside } else { &mut outside };
        *new = *next;
        *next += 1;
    }
    (map, size)
}

/// D, as bits: the directions in which any two of these nodes differ.
fn differing(nodes: impl IntoIterator<Item = u32>) -> u32 {
    let mut nodes = nodes.into_iter();
    let Some(first) = nodes.next() else { return 0 };
    nodes.fold(0, |d, node| d | (node ^ first))
}
