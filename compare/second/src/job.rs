//! Job numbers and texts in a message: the spelling of bytes, and writing and reading a job.

use crate::book::Book;
use crate::codec::{placed, read, write};
use crate::digits;
use crate::figures::{Figures, MAX_RUNS};

/// The least K that has room for a number and some text.
const LEAST_PAYLOAD: usize = 5;

/// w: how many symbols a byte takes.
pub fn width(q: u32) -> usize {
    let mut values = q;
    let mut w = 1;
    while values < 256 {
        values *= q;
        w += 1;
    }
    w
}

/// K: how many bytes a message holds.
pub fn payload_len(f: &Figures) -> usize {
    f.k / width(f.q)
}

/// Whether the payload has room for a job.
pub fn has_room(f: &Figures) -> bool {
    payload_len(f) >= LEAST_PAYLOAD
}

/// The number that a payload of at least 4 bytes begins with.
pub(crate) fn number(payload: &[u8]) -> u32 {
    u32::from_be_bytes([payload[0], payload[1], payload[2], payload[3]])
}

/// Spells the payload over a message of zeros; leftover symbols stay 0.
fn spell(q: u32, payload: &[u8], message: &mut [u8]) {
    for (symbols, &byte) in message.chunks_exact_mut(width(q)).zip(payload) {
        digits::put(q as u64, byte as u64, symbols);
    }
}

/// Reads the payload of a message, or tells that it spells none.
fn unspell(q: u32, message: &[u8], payload: &mut [u8]) -> bool {
    let bytes = message.chunks_exact(width(q));
    if bytes.remainder().iter().any(|&symbol| symbol != 0) {
        return false;
    }
    for (symbols, byte) in bytes.zip(payload) {
        // Eight symbols below 2, or one below 256: the value stays far below 2^32.
        let value = symbols
            .iter()
            .fold(0, |value, &symbol| value * q + symbol as u32);
        if value >= 256 {
            return false;
        }
        *byte = value as u8;
    }
    true
}

/// Writes an open job's word. Refusals 10 3 5 17 12 23 14.
pub fn write_job(f: &Figures, book: &Book, starts: &[u16], payload: &[u8], word: &mut [u8]) -> u8 {
    if !has_room(f) {
        return 10;
    }
    if starts.len() != f.m || payload.len() != payload_len(f) || word.len() != f.n {
        return 3;
    }
    if !placed(f, starts) {
        return 5;
    }
    if let Err(refusal) = book.require_writable(number(payload)) {
        return refusal;
    }
    write_payload(f, starts, payload, word);
    0
}

/// Writes the word of a placement and K bytes that are known to be right.
pub(crate) fn write_payload(f: &Figures, starts: &[u16], payload: &[u8], word: &mut [u8]) {
    let mut message = vec![0; f.k];
    spell(f.q, payload, &mut message);
    write(f, starts, &message, word);
}

/// Reads an open job's word. Refusals 10 for K, 3, then those of the word reader, 10, 12 23 14.
pub fn read_job(f: &Figures, book: &Book, word: &[u8], payload: &mut [u8]) -> u8 {
    if !has_room(f) {
        return 10;
    }
    if word.len() != f.n || payload.len() != payload_len(f) {
        return 3;
    }
    let bytes = match found_payload(f, word) {
        Ok((_, bytes)) => bytes,
        Err(refusal) => return refusal,
    };
    if let Err(refusal) = book.require_open(number(&bytes)) {
        return refusal;
    }
    payload.copy_from_slice(&bytes);
    0
}

/// The starts of a found word of n bytes, those past m 0, and the K bytes that it carries. Refusals of `read`, then 10.
pub(crate) fn found_payload(f: &Figures, word: &[u8]) -> Result<([u16; MAX_RUNS], Vec<u8>), u8> {
    let found = read(f, word)?;
    let mut message = vec![0; f.k];
    found.message(f, word, &mut message);
    let mut bytes = vec![0; payload_len(f)];
    if !unspell(f.q, &message, &mut bytes) {
        return Err(10);
    }
    Ok((found.starts, bytes))
}
