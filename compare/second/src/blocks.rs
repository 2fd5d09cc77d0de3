//! The blocks of a word: where they begin, and the FBI rule in both directions. Sets of blocks are bits of a u64.

use crate::figures::{Figures, MAX_BLOCKS};

/// Where each block begins; the entry after the last block is n.
pub struct Layout {
    pub begin: [u16; MAX_BLOCKS + 1],
}

/// Where piece `i` begins when `total` is cut into pieces that differ by at most one, shorter ones first.
pub(crate) fn cut(total: usize, pieces: usize, i: usize) -> usize {
    let shorter = pieces - total % pieces;
    i * (total / pieces) + i.saturating_sub(shorter)
}

impl Layout {
    pub fn new(f: &Figures) -> Layout {
        let mut begin = [0; MAX_BLOCKS + 1];
        for part in 0..f.p {
            let from = cut(f.n, f.p, part);
            let len = cut(f.n, f.p, part + 1) - from;
            for j in 0..f.m {
                begin[part * f.m + j] = (from + cut(len, f.m, j)) as u16;
            }
        }
        begin[f.blocks()] = f.n as u16;
        Layout { begin }
    }
}

/// The B-blocks of a placement.
pub fn burst_blocks(f: &Figures, layout: &Layout, starts: &[u16]) -> u64 {
    let mut bursts = 0u64;
    let mut block = 0;
    for &start in starts {
        let last = start as usize + f.b - 1;
        while layout.begin[block + 1] as usize <= last {
            block += 1;
        }
        let taken = bursts >> block & 1 == 1;
        // The leftmost block that isn't yet B is the lowest clear bit.
        bursts |= if taken {
            (bursts + 1) & !bursts
        } else {
            1 << block
        };
    }
    bursts
}

/// All blocks of one part.
fn part(f: &Figures, i: usize) -> u64 {
    ((1 << f.m) - 1) << (i * f.m)
}

/// The I-blocks that the rule gives for these B-blocks.
pub fn index_blocks(f: &Figures, bursts: u64) -> u64 {
    let with = |i: &usize| bursts & part(f, *i) != 0;
    let first_with = (0..f.p).find(with).unwrap_or(0);
    if bursts & !part(f, first_with) == 0 {
        return part(f, (first_with + 1) % f.p);
    }
    if let Some(i) = (0..f.p).find(|i| !with(i)) {
        return part(f, i);
    }
    (0..f.p).fold(0, |index, i| {
        let j = (bursts >> (i * f.m)).trailing_zeros() as usize;
        index | 1 << (i * f.m + (j + 1) % f.m)
    })
}

/// The one that carries the index among one or two of `count` in a ring: the only one, or the later of two neighbours, 0 after the last.
fn later(set: u64, count: usize) -> Option<usize> {
    let low = set.trailing_zeros() as usize;
    match set.count_ones() {
        1 => Some(low),
        2 if set >> low == 0b11 => Some(low + 1),
        2 if set == 1 | 1 << (count - 1) => Some(0),
        _ => None,
    }
}

/// The I-blocks that the pattern of first symbols gives, where `fixed` are the blocks that start with 0; none is refusal 7.
pub fn pattern(f: &Figures, fixed: u64) -> Option<u64> {
    let without = |i: &usize| fixed & part(f, *i) == 0;
    let parts = (0..f.p).filter(without).fold(0, |set, i| set | 1u64 << i);
    if parts != 0 {
        return later(parts, f.p).map(|i| part(f, i));
    }
    if f.m <= 2 {
        return None;
    }
    let mut index = 0;
    for i in 0..f.p {
        let others = (!fixed & part(f, i)) >> (i * f.m);
        index |= 1 << (i * f.m + later(others, f.m)?);
    }
    Some(index)
}
