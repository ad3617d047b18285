//! What the limit writes to a record: the nodes that a job is given or loses.

use crate::rows::Record;
use cube_reference::record::{HOLDERS, NODES, STARS};

/// Makes the job the holder of a subcube's nodes, with its star bits. Nodes that
/// differ in the lowest stars alone follow each other and are written at once.
pub fn give(record: &mut Record, job: u16, low: u16, stars: u16) {
    let run = 1 << stars.trailing_ones();
    let apart = stars & !(run - 1);
    let mut part = 0;
    loop {
        let (at, size) = (2 * usize::from(low | part), 2 * usize::from(run));
        fill(&mut record[HOLDERS + at..][..size], job);
        fill(&mut record[STARS + at..][..size], stars);
        part = part.wrapping_sub(apart) & apart;
        if part == 0 {
            break;
        }
    }
}

fn fill(bytes: &mut [u8], word: u16) {
    bytes.chunks_exact_mut(2).for_each(|bytes| bytes.copy_from_slice(&word.to_le_bytes()));
}

/// Makes the nodes that a job holds unheld, with star bits 0: every field is
/// written again, so that no branch hangs on a holder.
pub fn clear(record: &mut Record, job: u16) {
    let mut kept = [0; NODES];
    for (kept, holder) in kept.iter_mut().zip(record[HOLDERS..].chunks_exact(2)) {
        *kept = if u16::from_le_bytes([holder[0], holder[1]]) == job { 0 } else { !0 };
    }
    for part in [HOLDERS, STARS] {
        for (word, kept) in record[part..].chunks_exact_mut(2).zip(kept) {
            let word_kept = u16::from_le_bytes([word[0], word[1]]) & kept;
            word.copy_from_slice(&word_kept.to_le_bytes());
        }
    }
}
