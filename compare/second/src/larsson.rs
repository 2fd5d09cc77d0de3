//! The Larsson code: 2 * m + 1 sub-blocks of R symbols, of which the first m + 1 that no run touches spell the placement's rank, each by itself.

use crate::blocks::cut;
use crate::choose::{rank, unrank};
use crate::digits;
use crate::figures::{Figures, MAX_RUNS};
use crate::reserved::Reserved;

/// Where sub-block `i` begins: the first at 0, the last ends the word, and the gaps are as equal as possible, shorter ones first.
pub fn begin(f: &Figures, i: usize) -> usize {
    i * f.r + cut(f.n - f.p * f.r, f.p - 1, i)
}

/// Where the first m + 1 sub-blocks that no run touches begin.
pub fn bearers<'a>(f: &'a Figures, starts: &'a [u16]) -> impl Iterator<Item = usize> + 'a {
    let touches = move |at: usize, start: usize| at.max(start) < (at + f.r).min(start + f.b);
    (0..f.p)
        .map(|i| begin(f, i))
        .filter(move |&at| !starts.iter().any(|&start| touches(at, start as usize)))
        .take(f.m + 1)
}

fn reserved(f: &Figures, starts: &[u16]) -> Reserved {
    Reserved::new(f, starts, bearers(f, starts).map(|at| (at, f.r)))
}

/// Writes what tells of a placement into a word of zeros.
pub fn write(f: &Figures, starts: &[u16], word: &mut [u8]) -> Reserved {
    let rank = rank(f, starts);
    for at in bearers(f, starts) {
        digits::put(f.q as u64, rank, &mut word[at..at + f.r]);
    }
    reserved(f, starts)
}

/// The starts that a found word tells of, those past m 0. Refusals 21 8 9.
pub fn read(f: &Figures, word: &[u8]) -> Result<([u16; MAX_RUNS], Reserved), u8> {
    let symbols = majority(f, word).ok_or(21)?;
    let rank = digits::append_all(f.t, 0, f.q as u64, symbols).ok_or(8)?;
    let starts = unrank(f, rank);
    if bearers(f, &starts[..f.m]).any(|at| word[at..at + f.r] != *symbols) {
        return Err(9);
    }
    Ok((starts, reserved(f, &starts[..f.m])))
}

/// The symbols that stand in at least m + 1 sub-blocks. One with a silent cell has no value.
fn majority<'a>(f: &Figures, word: &'a [u8]) -> Option<&'a [u8]> {
    let sub_block = |i: usize| &word[begin(f, i)..begin(f, i) + f.r];
    let bearing = |symbols: &&[u8]| {
        let same = (0..f.p).filter(|&i| sub_block(i) == *symbols);
        same.count() > f.m
    };
    (0..f.p)
        .map(sub_block)
        .filter(|symbols| !f.silent(symbols))
        .find(bearing)
}
