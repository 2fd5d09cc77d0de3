//! The table of job numbers that the calls are made on.

use crate::raw;
use crate::refusal::Refusal;

/// 64 places of 5 bytes: a state and a number, high byte first. States: 0 free, 1 open, 2 cancelled and was open, 3 cancelled and was absent,
/// 4 on hold, 5 cancelled and was on hold.
#[derive(Clone, PartialEq, Eq, Debug)]
pub struct Table {
    bytes: [u8; Table::LEN],
}

impl Table {
    pub const LEN: usize = 320;

    /// An empty table.
    pub fn new() -> Table {
        Table {
            bytes: [0; Table::LEN],
        }
    }

    /// A table kept elsewhere. Each call judges it, and refuses one with an unknown state or one number twice.
    pub fn from_bytes(bytes: [u8; Table::LEN]) -> Table {
        Table { bytes }
    }

    pub fn as_bytes(&self) -> &[u8; Table::LEN] {
        &self.bytes
    }

    /// Number 0 is no job, and always refused.
    pub fn open(&mut self, number: u32) -> Result<(), Refusal> {
        Refusal::of(raw::open(&mut self.bytes, number))
    }

    /// A 0 is refused unless the table holds it.
    pub fn cancel(&mut self, number: u32) -> Result<(), Refusal> {
        Refusal::of(raw::cancel(&mut self.bytes, number))
    }

    pub fn finish(&mut self, number: u32) -> Result<(), Refusal> {
        Refusal::of(raw::finish(&mut self.bytes, number))
    }

    /// Takes a cancellation back: the number is open or on hold again, or absent where it was. A cancelled 0 too.
    pub fn reinstate(&mut self, number: u32) -> Result<(), Refusal> {
        Refusal::of(raw::reinstate(&mut self.bytes, number))
    }

    /// Puts an open number on hold: until it is released, it is neither read, written nor finished. An open 0 too.
    pub fn hold(&mut self, number: u32) -> Result<(), Refusal> {
        Refusal::of(raw::hold(&mut self.bytes, number))
    }

    /// Makes a number on hold open again.
    pub fn release(&mut self, number: u32) -> Result<(), Refusal> {
        Refusal::of(raw::release(&mut self.bytes, number))
    }
}

impl Default for Table {
    fn default() -> Table {
        Table::new()
    }
}
