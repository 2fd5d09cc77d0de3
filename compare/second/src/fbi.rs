//! Constructions A and B: the I-blocks, which the FBI rule gives, spell where the runs are.

use crate::blocks::{burst_blocks, index_blocks, pattern, Layout};
use crate::digits;
use crate::figures::{Figures, MAX_RUNS};
use crate::index;
use crate::reserved::Reserved;

/// Writes what tells of a placement into a word of zeros.
pub fn write(f: &Figures, starts: &[u16], word: &mut [u8]) -> Reserved {
    let layout = Layout::new(f);
    let bursts = burst_blocks(f, &layout, starts);
    let index = index_blocks(f, bursts);
    write_value(f, &layout, index, index::value(f, &layout, starts), word);
    reserved(f, &layout, starts, bursts, index)
}

/// Runs, heads of I-blocks, and first symbols of F-blocks.
fn reserved(f: &Figures, layout: &Layout, starts: &[u16], bursts: u64, index: u64) -> Reserved {
    let others = (0..f.blocks()).map(|block| {
        let len = match (index >> block & 1, bursts >> block & 1) {
            (1, _) => 1 + f.r,
            (_, 0) => 1,
            _ => 0,
        };
        (layout.begin[block] as usize, len)
    });
    Reserved::new(f, starts, others)
}

fn write_value(f: &Figures, layout: &Layout, index: u64, value: u64, word: &mut [u8]) {
    let q = f.q as u64;
    let mut left = value;
    for block in (0..f.blocks())
        .rev()
        .filter(|&block| index >> block & 1 == 1)
    {
        let begin = layout.begin[block] as usize;
        left = digits::put(q, left, &mut word[begin + 1..=begin + f.r]);
        word[begin] = (left % (q - 1)) as u8 + 1;
        left /= q - 1;
    }
}

/// The starts that a found word tells of, those past m 0. Refusals 7 19 8 9.
pub fn read(f: &Figures, word: &[u8]) -> Result<([u16; MAX_RUNS], Reserved), u8> {
    let layout = Layout::new(f);
    let fixed = (0..f.blocks()).fold(0u64, |set, block| {
        set | (looks_fixed(&word[layout.begin[block] as usize..]) as u64) << block
    });
    let index = pattern(f, fixed).ok_or(7)?;
    if heads(f, &layout, index, word).any(|head| f.silent(head)) {
        return Err(19);
    }
    let value = read_value(f, &layout, index, word).ok_or(8)?;
    let starts = index::starts(f, &layout, index, value).ok_or(9)?;
    let bursts = burst_blocks(f, &layout, &starts[..f.m]);
    // There may be 64 blocks, which fill the set.
    let all = u64::MAX >> (u64::BITS - f.blocks() as u32);
    if index_blocks(f, bursts) != index || all & !bursts & !index & !fixed != 0 {
        return Err(9);
    }
    let reserved = reserved(f, &layout, &starts[..f.m], bursts, index);
    Ok((starts, reserved))
}

fn looks_fixed(block: &[u8]) -> bool {
    block[0] == 0
}

/// The first 1 + r symbols of each I-block, from left to right.
fn heads<'a>(
    f: &'a Figures,
    layout: &'a Layout,
    index: u64,
    word: &'a [u8],
) -> impl Iterator<Item = &'a [u8]> {
    let begin = |block: usize| layout.begin[block] as usize;
    (0..f.blocks())
        .filter(move |&block| index >> block & 1 == 1)
        .map(move |block| &word[begin(block)..=begin(block) + f.r])
}

/// The value at the heads of the I-blocks, or none where it is too large.
fn read_value(f: &Figures, layout: &Layout, index: u64, word: &[u8]) -> Option<u64> {
    let q = f.q as u64;
    let bound = index::values(f, layout, index);
    let mut value = 0;
    for head in heads(f, layout, index, word) {
        value = digits::append(bound, value, q - 1, head[0] - 1)?;
        value = digits::append_all(bound, value, q, &head[1..])?;
    }
    Some(value)
}
