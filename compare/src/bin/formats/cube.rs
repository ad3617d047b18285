//! One cube of the proved library.

use cube_proved as proved;
pub use cube_reference::record::{HOLDERS, NODES, SIZE};

#[derive(Clone)]
pub struct Cube {
    pub record: Vec<u8>,
}

/// The byte that buffers hold before a call.
pub const BEFORE: u8 = 0xee;

impl Cube {
    /// Set up in a buffer that held something else.
    pub fn fresh(n: usize) -> Cube {
        let mut record = vec![BEFORE; SIZE];
        assert_eq!(proved::setup(&mut record, n as u32), 0, "set-up of n = {n}");
        Cube { record }
    }

    /// The number returned, and the reply buffer of this length afterwards.
    pub fn call(&mut self, frame: &[u8], reply: usize) -> (usize, Vec<u8>) {
        let mut reply = vec![BEFORE; reply];
        let number = proved::call(&mut self.record, frame, &mut reply);
        (number as usize, reply)
    }

    /// The nodes' holders, two bytes each.
    pub fn holders(&self) -> impl Iterator<Item = &[u8]> {
        self.record[HOLDERS..].chunks(2).take(NODES)
    }
}
