//! The frames of the calls, as `include/cube.h` gives them.

pub fn frame(kind: u16, fields: &[u8]) -> Vec<u8> {
    let length = 4 + fields.len() as u16;
    [&length.to_le_bytes(), &kind.to_le_bytes(), fields].concat()
}

pub fn good(node: u16) -> Vec<u8> {
    frame(0x0101, &node.to_le_bytes())
}

pub fn fault(node: u16) -> Vec<u8> {
    frame(0x0102, &node.to_le_bytes())
}

pub fn repaired(node: u16) -> Vec<u8> {
    frame(0x0103, &node.to_le_bytes())
}

pub fn relabel() -> Vec<u8> {
    frame(0x0203, &[])
}

pub fn request(job: u16, k: u8, strategy: u8) -> Vec<u8> {
    asking(0x0201, job, k, strategy)
}

pub fn grow(job: u16, k: u8, strategy: u8) -> Vec<u8> {
    asking(0x0204, job, k, strategy)
}

fn asking(kind: u16, job: u16, k: u8, strategy: u8) -> Vec<u8> {
    let job = job.to_le_bytes();
    frame(kind, &[job[0], job[1], k, strategy])
}

pub fn release(job: u16) -> Vec<u8> {
    frame(0x0202, &job.to_le_bytes())
}
