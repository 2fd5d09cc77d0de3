//! The word writer, the check of words from elsewhere, and the word reader.

use crate::choose::rank;
use crate::figures::{Code, Figures, MAX_RUNS};
use crate::reserved::Reserved;
use crate::{fbi, larsson};

/// Whether the starts make a placement: m are given, runs ascend, don't touch each other's positions and end inside the word.
pub fn placed(f: &Figures, starts: &[u16]) -> bool {
    let mut free = 0;
    for &start in starts {
        if (start as usize) < free {
            return false;
        }
        free = start as usize + f.b;
    }
    free <= f.n
}

/// Writes the word of a placement and a message. Refusals 3 5 4.
pub fn encode(f: &Figures, starts: &[u16], message: &[u8], word: &mut [u8]) -> u8 {
    if starts.len() != f.m || message.len() != f.k || word.len() != f.n {
        return 3;
    }
    if !placed(f, starts) {
        return 5;
    }
    if !f.symbols(message) {
        return 4;
    }
    write(f, starts, message, word);
    0
}

/// Writes a word whose placement and message are known to be right.
pub(crate) fn write(f: &Figures, starts: &[u16], message: &[u8], word: &mut [u8]) {
    word.fill(0);
    let reserved = match f.code {
        Code::Larsson => larsson::write(f, starts, word),
        _ => fbi::write(f, starts, word),
    };
    reserved.between(f.n, |done, from, to| {
        word[from..to].copy_from_slice(&message[done..done + to - from]);
    });
}

/// Whether a found word agrees with the word of a placement and a message at every position outside the runs. Refusals 3 5 4.
pub fn verify(f: &Figures, starts: &[u16], message: &[u8], word: &[u8]) -> Result<bool, u8> {
    let mut wanted = vec![0; f.n];
    if word.len() != f.n {
        return Err(3);
    }
    match encode(f, starts, message, &mut wanted) {
        0 if f.found(word) => {}
        0 => return Err(4),
        refusal => return Err(refusal),
    }
    let inside = |at: usize| {
        let mut runs = starts.iter().map(|&start| start as usize);
        runs.any(|start| (start..start + f.b).contains(&at))
    };
    Ok((0..f.n).all(|at| word[at] == wanted[at] || inside(at)))
}

/// Reads a found word: its message and the placement. Refusals 3, then those of `read`.
pub fn decode(f: &Figures, word: &[u8], message: &mut [u8], starts: &mut [u16]) -> u8 {
    if word.len() != f.n || message.len() != f.k || starts.len() != f.m {
        return 3;
    }
    match read(f, word) {
        Ok(found) => {
            found.message(f, word, message);
            starts.copy_from_slice(&found.starts[..f.m]);
            0
        }
        Err(refusal) => refusal,
    }
}

/// What an accepted word says.
#[derive(Debug)]
pub struct Found {
    pub rank: u64,
    /// Those past m are 0.
    pub starts: [u16; MAX_RUNS],
    reserved: Reserved,
}

impl Found {
    /// Copies the k message symbols out of the word.
    pub fn message(&self, f: &Figures, word: &[u8], message: &mut [u8]) {
        self.reserved.between(f.n, |done, from, to| {
            message[done..done + to - from].copy_from_slice(&word[from..to]);
        });
    }
}

/// Judges a found word of n bytes. Refusals 4, then 7, 19 for the I-blocks, 8 and 9, or of the Larsson code 21 8 9; then 19 for the message.
pub fn read(f: &Figures, word: &[u8]) -> Result<Found, u8> {
    if !f.found(word) {
        return Err(4);
    }
    let (starts, reserved) = match f.code {
        Code::Larsson => larsson::read(f, word)?,
        _ => fbi::read(f, word)?,
    };
    let mut silent = false;
    reserved.between(f.n, |_, from, to| silent |= f.silent(&word[from..to]));
    if silent {
        return Err(19);
    }
    Ok(Found {
        rank: rank(f, &starts[..f.m]),
        starts,
        reserved,
    })
}
