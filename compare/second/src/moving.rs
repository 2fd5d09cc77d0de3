//! Jobs moved between the Larsson code and Construction A, with the same figures and placement.

use crate::book::Book;
use crate::figures::Figures;
use crate::job::{found_payload, has_room, number, payload_len, write_payload};

/// The layouts of the same figures in both codes. Refusals 1 2.
#[derive(Debug)]
pub struct Layouts {
    larsson: Figures,
    construction_a: Figures,
}

impl Layouts {
    pub fn new(n: u32, q: u32, m: u32, b: u32) -> Result<Layouts, u8> {
        Ok(Layouts {
            larsson: Figures::larsson(n, q, m, b)?,
            construction_a: Figures::new(n, q, m, b)?,
        })
    }

    /// Whether each payload has room for a job.
    pub fn have_room(&self) -> bool {
        has_room(&self.larsson) && has_room(&self.construction_a)
    }

    /// Moves a job from an older strip. Refusals 10 3 4 21 8 9 19 10 12 23 14 22 17.
    pub fn from_larsson(&self, book: &Book, found: &[u8], word: &mut [u8]) -> u8 {
        let moved = move_job(&self.larsson, &self.construction_a, book, found, word);
        moved.err().unwrap_or(0)
    }

    /// Moves a job to an older strip. Refusals 10 3 4 7 19 8 9 19 10 12 23 14 22 17.
    pub fn to_larsson(&self, book: &Book, found: &[u8], word: &mut [u8]) -> u8 {
        let moved = move_job(&self.construction_a, &self.larsson, book, found, word);
        moved.err().unwrap_or(0)
    }
}

fn move_job(
    from: &Figures,
    to: &Figures,
    book: &Book,
    found: &[u8],
    word: &mut [u8],
) -> Result<(), u8> {
    if !has_room(from) || !has_room(to) {
        return Err(10);
    }
    if found.len() != from.n || word.len() != to.n {
        return Err(3);
    }
    let (starts, mut payload) = found_payload(from, found)?;
    book.require_open(number(&payload))?;
    let len = payload_len(to);
    if payload.iter().skip(len).any(|&byte| byte != 0) {
        return Err(22);
    }
    book.require_writable(number(&payload))?;
    payload.resize(len, 0);
    write_payload(to, &starts[..to.m], &payload, word);
    Ok(())
}
