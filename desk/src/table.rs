//! What a table holds, slot by slot: for listing it, and for saying what a call has done.

use burgzemi::{Refusal, Table};

/// A slot's bytes: a state, and the job number, high byte first.
const SLOT: usize = 5;
pub const SLOTS: usize = Table::LEN / SLOT;

#[derive(Clone, Copy, PartialEq, Eq, Debug)]
pub struct Entry {
    pub slot: usize,
    pub state: u8,
    pub number: u32,
}

/// The entries that are not free, in the order of their slots.
pub fn taken(table: &Table) -> Vec<Entry> {
    let slots = table.as_bytes().chunks_exact(SLOT).enumerate();
    slots
        .filter(|(_, bytes)| bytes[0] != 0)
        .map(|(slot, bytes)| Entry {
            slot,
            state: bytes[0],
            number: u32::from_be_bytes([bytes[1], bytes[2], bytes[3], bytes[4]]),
        })
        .collect()
}

/// A number's state in words.
pub fn status(table: &Table, number: u32) -> &'static str {
    let entries = taken(table);
    let entry = entries.iter().find(|entry| entry.number == number);
    entry.map_or("not in the table", |entry| state_text(entry.state))
}

pub fn state_text(state: u8) -> &'static str {
    match state {
        1 => "open",
        2 => "cancelled, was open",
        3 => "cancelled, was not in the table",
        4 => "on hold",
        5 => "cancelled, was on hold",
        _ => "in an unknown state",
    }
}

/// Whether the library takes the table: every call refuses one with an unknown state or a number twice with 1, before it looks at anything else.
pub fn is_sound(table: &Table) -> bool {
    table.clone().reinstate(0) != Err(Refusal::INVALID)
}
