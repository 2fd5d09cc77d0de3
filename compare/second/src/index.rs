//! What the I-blocks spell: in Construction A the placement's rank, in Construction B how far into its part the run ends.

use crate::blocks::{burst_blocks, Layout};
use crate::choose::{rank, unrank};
use crate::figures::{Code, Figures, MAX_RUNS};

/// The value that a placement's I-blocks spell.
pub fn value(f: &Figures, layout: &Layout, starts: &[u16]) -> u64 {
    match f.code {
        Code::ConstructionB => {
            let part = burst_blocks(f, layout, starts).trailing_zeros() as usize;
            let last = starts[0] as usize + f.b - 1;
            (last - layout.begin[part] as usize) as u64
        }
        _ => rank(f, starts),
    }
}

/// How many values these I-blocks may spell: a larger one is refused with 8.
pub fn values(f: &Figures, layout: &Layout, index: u64) -> u64 {
    match f.code {
        Code::ConstructionB => {
            let part = burst_part(f, index);
            (layout.begin[part + 1] - layout.begin[part]) as u64
        }
        _ => f.t,
    }
}

/// The starts that such a value gives, those past m 0; none where the run would start before position 0.
pub fn starts(f: &Figures, layout: &Layout, index: u64, value: u64) -> Option<[u16; MAX_RUNS]> {
    match f.code {
        Code::ConstructionB => {
            let end = layout.begin[burst_part(f, index)] + value as u16 + 1;
            let mut starts = [0; MAX_RUNS];
            starts[0] = end.checked_sub(f.b as u16)?;
            Some(starts)
        }
        _ => Some(unrank(f, value)),
    }
}

/// Construction B's part in which the run ends: the one before the I part, round.
fn burst_part(f: &Figures, index: u64) -> usize {
    (index.trailing_zeros() as usize + f.p - 1) % f.p
}
