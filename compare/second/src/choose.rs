//! The ways to choose up to eight things out of up to 4096, and the rank of a placement.

use crate::figures::{Figures, MAX_N, MAX_RUNS};

/// The largest count of placements that figures may have.
pub const MAX_COUNT: u64 = 9_223_372_036_854_775_807;

/// Stands for every number above `MAX_COUNT`.
const OVER: u64 = MAX_COUNT + 1;

/// Row j holds the ways to choose j things, capped at `OVER`. No row descends.
static WAYS: [[u64; MAX_N + 1]; MAX_RUNS + 1] = pascal();

const fn pascal() -> [[u64; MAX_N + 1]; MAX_RUNS + 1] {
    let mut ways = [[0u64; MAX_N + 1]; MAX_RUNS + 1];
    let mut of = 0;
    while of <= MAX_N {
        ways[0][of] = 1;
        let mut things = 1;
        while things <= MAX_RUNS && of > 0 {
            // Two times `OVER` is one more than 64 bits hold.
            let sum = ways[things][of - 1].saturating_add(ways[things - 1][of - 1]);
            ways[things][of] = if sum > MAX_COUNT { OVER } else { sum };
            things += 1;
        }
        of += 1;
    }
    ways
}

/// The ways to choose `things` (at most 8) out of `of` (at most 4096); none where they exceed `MAX_COUNT`.
pub fn choose(of: usize, things: usize) -> Option<u64> {
    let ways = WAYS[things][of];
    (ways <= MAX_COUNT).then_some(ways)
}

/// The rank of a placement that the figures allow. It is below T, so no term of its sum exceeds `MAX_COUNT`.
pub fn rank(f: &Figures, starts: &[u16]) -> u64 {
    let reduced = |i: usize, start: u16| start as usize - i * (f.b - 1);
    let ways = |(i, &start): (usize, &u16)| WAYS[i + 1][reduced(i, start)];
    starts.iter().enumerate().map(ways).sum()
}

/// The starts of the placement of a rank below T; those past m are 0.
pub fn unrank(f: &Figures, rank: u64) -> [u16; MAX_RUNS] {
    let mut starts = [0; MAX_RUNS];
    let mut left = rank;
    // Every reduced start is below this, and below the one found before it.
    let mut bound = f.n - f.m * f.b + f.m;
    for i in (0..f.m).rev() {
        // The largest reduced start whose ways don't exceed what is left, which is below T and so below `OVER`.
        let reduced = WAYS[i + 1][..bound].partition_point(|&ways| ways <= left) - 1;
        left -= WAYS[i + 1][reduced];
        starts[i] = (reduced + i * (f.b - 1)) as u16;
        bound = reduced;
    }
    starts
}
