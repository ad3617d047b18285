//! Frames and replies: document 01, "Six calls and their frames", and the
//! growth of document 02, (e).

/// A call with its fields.
#[derive(Clone, Copy, Debug, PartialEq, Eq)]
pub enum Call {
    Good { node: u16 },
    Fault { node: u16 },
    Repaired { node: u16 },
    Relabel,
    Request { job: u16, k: u8, strategy: u8 },
    Release { job: u16 },
    Grow { job: u16, k: u8, strategy: u8 },
}

/// The field of two bytes at a place, little-endian.
pub(crate) fn field(bytes: &[u8], at: usize) -> u16 {
    u16::from_le_bytes([bytes[at], bytes[at + 1]])
}

/// A frame's call, or the number of the cause it meets: 3, 4 or 5.
pub fn read(frame: &[u8]) -> Result<Call, u16> {
    if frame.len() < 4 || usize::from(field(frame, 0)) != frame.len() {
        return Err(3);
    }
    let kind = field(frame, 2);
    let size = match kind {
        0x0101 | 0x0102 | 0x0103 | 0x0202 => 6,
        0x0201 | 0x0204 => 8,
        0x0203 => 4,
        _ => return Err(4),
    };
    if frame.len() != size {
        return Err(5);
    }
    Ok(match kind {
        0x0101 => Call::Good { node: field(frame, 4) },
        0x0102 => Call::Fault { node: field(frame, 4) },
        0x0103 => Call::Repaired { node: field(frame, 4) },
        0x0202 => Call::Release { job: field(frame, 4) },
        0x0201 => Call::Request { job: field(frame, 4), k: frame[6], strategy: frame[7] },
        0x0204 => Call::Grow { job: field(frame, 4), k: frame[6], strategy: frame[7] },
        _ => Call::Relabel,
    })
}

/// A reply's fields.
#[derive(Clone, Copy, Debug, PartialEq, Eq)]
pub enum Reply {
    Granted { job: u16, lowest: u16, stars: u16, tried: u16 },
    Refused { number: u16, tried: u16 },
    Done { value: u16 },
}

impl Reply {
    /// A refusal other than 14.
    pub(crate) fn refuse(number: u16) -> Reply {
        Reply::Refused { number, tried: 0 }
    }

    /// Refusal 14, with the family's whole count.
    pub(crate) fn none_free(count: u32) -> Reply {
        Reply::Refused { number: 14, tried: count as u16 }
    }

    /// Writes the reply's frame; bytes past it keep their values.
    pub(crate) fn write(&self, bytes: &mut [u8]) {
        match *self {
            Reply::Granted { job, lowest, stars, tried } => {
                write_fields(bytes, [12, 0x8001, job, lowest, stars, tried]);
            }
            Reply::Refused { number, tried } => write_fields(bytes, [8, 0x8002, number, tried]),
            Reply::Done { value } => write_fields(bytes, [6, 0x8003, value]),
        }
    }

    /// The reply that stands at the start of 12 bytes or more.
    pub fn read(bytes: &[u8]) -> Option<Reply> {
        if bytes.len() < 12 {
            return None;
        }
        let at = |i: usize| field(bytes, 2 * i);
        match (at(0), at(1)) {
            (12, 0x8001) => {
                Some(Reply::Granted { job: at(2), lowest: at(3), stars: at(4), tried: at(5) })
            }
            (8, 0x8002) => Some(Reply::Refused { number: at(2), tried: at(3) }),
            (6, 0x8003) => Some(Reply::Done { value: at(2) }),
            _ => None,
        }
    }
}

fn write_fields<const N: usize>(bytes: &mut [u8], fields: [u16; N]) {
    for (place, value) in bytes.chunks_exact_mut(2).zip(fields) {
        place.copy_from_slice(&value.to_le_bytes());
    }
}
