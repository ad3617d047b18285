//! One cube held twice, by the proved library and by the second program.

use cube_proved as proved;
use cube_reference as reference;
use reference::record::{is_valid, Record};
use reference::session::fresh;

pub struct Pair {
    pub proved: Vec<u8>,
    pub reference: Vec<u8>,
}

/// What differs after a call, in words.
pub type Outcome = Result<u32, String>;

impl Pair {
    pub fn new(record: Vec<u8>) -> Pair {
        Pair { reference: record.clone(), proved: record }
    }

    /// The record that calls are drawn for: this one, or a fresh one of
    /// dimension n in place of a damaged one.
    pub fn cube(&self, n: u32) -> Record {
        match self.reference[..].try_into() {
            Ok(record) if is_valid(&record) => record,
            _ => fresh(n),
        }
    }

    pub fn setup(&mut self, n: u32) -> Outcome {
        let got = proved::setup(&mut self.proved, n);
        let expected = reference::setup(&mut self.reference, n);
        self.same(got, expected)?;
        Ok(got)
    }

    /// The same frame and the same reply buffer to both: the number, every
    /// byte of the record and every byte of the reply are compared.
    pub fn call(&mut self, frame: &[u8], reply: &[u8]) -> Outcome {
        Ok(self.replied(frame, reply)?.0)
    }

    /// As `call`, with what the reply buffer has then.
    pub fn replied(&mut self, frame: &[u8], reply: &[u8]) -> Result<(u32, Vec<u8>), String> {
        let (mut ours, mut theirs) = (reply.to_vec(), reply.to_vec());
        let got = proved::call(&mut self.proved, frame, &mut ours);
        let expected = reference::call(&mut self.reference, frame, &mut theirs);
        self.same(got, expected)?;
        if ours != theirs {
            return Err(format!("reply {ours:02x?}, expected {theirs:02x?}"));
        }
        Ok((got, ours))
    }

    /// The loading call, of both; it leaves every byte of the record.
    pub fn load(&self) -> Outcome {
        let got = proved::load(&self.proved);
        let expected = reference::load(&self.reference);
        self.same(got, expected)?;
        Ok(got)
    }

    fn same(&self, got: u32, expected: u32) -> Result<(), String> {
        if got != expected {
            return Err(format!("returned {got}, expected {expected}"));
        }
        if self.proved == self.reference {
            return Ok(());
        }
        let mut bytes = self.proved.iter().zip(&self.reference);
        let at = bytes.position(|(ours, theirs)| ours != theirs).expect("buffers of one size");
        Err(format!(
            "record byte {at} is {:#04x}, expected {:#04x}",
            self.proved[at], self.reference[at]
        ))
    }
}
