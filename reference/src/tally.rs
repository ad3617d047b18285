//! The counts that end a log: document 01, "Log program".

use std::fmt;

use crate::frame::Reply;

/// Lines and each outcome; a count that has reached 4294967295 stays there.
#[derive(Clone, Copy, Debug, Default, PartialEq, Eq)]
pub struct Tally {
    pub total: u32,
    pub setup: u32,
    pub done: u32,
    pub granted: u32,
    pub refused: u32,
}

impl Tally {
    pub fn add_setup(&mut self) {
        count(&mut self.total);
        count(&mut self.setup);
    }

    pub fn add_reply(&mut self, reply: &Reply) {
        count(&mut self.total);
        count(match reply {
            Reply::Done { .. } => &mut self.done,
            Reply::Granted { .. } => &mut self.granted,
            Reply::Refused { .. } => &mut self.refused,
        });
    }
}

fn count(counter: &mut u32) {
    *counter = counter.saturating_add(1);
}

impl fmt::Display for Tally {
    fn fmt(&self, f: &mut fmt::Formatter<'_>) -> fmt::Result {
        let Tally { total, setup, done, granted, refused } = self;
        write!(f, "total {total} setup {setup} done {done} granted {granted} refused {refused}")
    }
}
