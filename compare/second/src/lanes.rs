//! Words side by side: with depth d, cell t of a strip holds symbol t / d, rounded down, of word t mod d.

use crate::figures::Figures;

pub const MAX_DEPTH: u32 = 16;

/// The depth as a length. Refusals 18, then 3 for either buffer.
fn depth_of(f: &Figures, depth: u32, words: &[u8], strip: &[u8]) -> Result<usize, u8> {
    if !(1..=MAX_DEPTH).contains(&depth) {
        return Err(18);
    }
    let depth = depth as usize;
    let len = depth * f.n;
    if words.len() != len || strip.len() != len {
        return Err(3);
    }
    Ok(depth)
}

/// Makes a strip of words that stand one after another. Refusals 18 3 4.
pub fn interleave(f: &Figures, depth: u32, words: &[u8], strip: &mut [u8]) -> u8 {
    let depth = match depth_of(f, depth, words, strip) {
        Ok(depth) => depth,
        Err(refusal) => return refusal,
    };
    if !f.symbols(words) {
        return 4;
    }
    for (lane, word) in words.chunks_exact(f.n).enumerate() {
        let cells = strip[lane..].iter_mut().step_by(depth);
        cells.zip(word).for_each(|(cell, &symbol)| *cell = symbol);
    }
    0
}

/// Takes a found strip apart into words that stand one after another. Refusals 18 3 4.
pub fn deinterleave(f: &Figures, depth: u32, strip: &[u8], words: &mut [u8]) -> u8 {
    let depth = match depth_of(f, depth, words, strip) {
        Ok(depth) => depth,
        Err(refusal) => return refusal,
    };
    if !f.found(strip) {
        return 4;
    }
    for (lane, word) in words.chunks_exact_mut(f.n).enumerate() {
        let cells = strip[lane..].iter().step_by(depth);
        word.iter_mut()
            .zip(cells)
            .for_each(|(symbol, &cell)| *symbol = cell);
    }
    0
}
