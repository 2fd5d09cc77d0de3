//! How the three codes lay a word out, worked out anew for pictures: no answer of the desk goes by it, and its test holds it to the library's answers.

use std::ops::Range;

use crate::figures::Numbers;

pub type Cells = Range<usize>;

/// Cuts a stretch into pieces whose lengths differ by at most one, shorter ones first.
pub fn cut(whole: Cells, count: usize) -> Vec<Cells> {
    let (short, longer) = (whole.len() / count, whole.len() % count);
    let mut first = whole.start;
    let pieces = (0..count).map(|piece| {
        let len = short + usize::from(piece >= count - longer);
        first += len;
        first - len..first
    });
    pieces.collect()
}

/// The ways to choose `count` things out of `from`. Figures that fit have at most 63 bits of them, and eight factors more fit 128.
pub fn choose(from: usize, count: usize) -> u128 {
    (0..count).fold(1, |ways, i| match from.checked_sub(i) {
        Some(factor) => ways * factor as u128 / (i as u128 + 1),
        None => 0,
    })
}

/// T, how many placements there are.
pub fn placement_count(numbers: Numbers) -> u128 {
    let Numbers { n, m, b, .. } = numbers;
    choose(n - m * b + m, m)
}

/// The rank of a placement: of each burst, the ways to choose as many things as its number out of its reduced start.
pub fn rank(starts: &[u16], b: usize) -> u128 {
    let ways = starts
        .iter()
        .enumerate()
        .map(|(i, start)| choose(usize::from(*start) - i * (b - 1), i + 1));
    ways.sum()
}

/// The least number of symbols behind a first one of `first` values for which `blocks` such heads spell at least `values`.
pub fn least_tail(first: usize, q: usize, blocks: usize, values: u128) -> usize {
    let mut spelled = (first as u128).saturating_pow(blocks as u32);
    let mut tail = 0;
    while spelled < values {
        spelled = spelled.saturating_mul((q as u128).saturating_pow(blocks as u32));
        tail += 1;
    }
    tail
}

/// The cells of each burst.
pub fn bursts(starts: &[u16], b: usize) -> impl Iterator<Item = Cells> + '_ {
    starts
        .iter()
        .map(move |start| usize::from(*start)..usize::from(*start) + b)
}
