//! The making of inputs: figures that fit, placements, messages, damage, and values spelled into a word.

use std::ops::RangeInclusive;

use burgzemi::Ranked;
use second::blocks::Layout;
use second::choose::unrank;
use second::figures::{Code, MAX_N, MAX_RUNS};
use second::job::width;
use second::moving::Layouts;
use second::{larsson, Figures};

use crate::rng::Rng;
use crate::sides::Numbers;

/// Figures as numbers: n, q, m and b.
pub fn ranked(f: &Figures) -> Ranked {
    (f.n as u32, f.q, f.m as u32, f.b as u32)
}

/// Figures as numbers of their code.
pub fn numbers(f: &Figures) -> Numbers {
    Numbers::of(f.code, ranked(f))
}

/// Lengths at the limits: the longest that fit with 8 runs, with 7, and at all, before change request 11 and since; those
/// where runs of one position have just too many placements; and the shortest with 7 and 8 runs.
const EDGES: [u64; 14] = [
    49, 64, 887, 888, 998, 999, 1024, 1025, 1733, 1734, 1998, 1999, 4095, 4096,
];

/// Judges n, q, m and b.
type Judged = fn(u32, u32, u32, u32) -> Result<Figures, u8>;

/// Figures of this code that fit.
pub fn figures(rng: &mut Rng, code: Code) -> Figures {
    match code {
        // No burst is longer than a block; of the Larsson code, than a gap between sub-blocks, plus 1.
        Code::ConstructionA => fitting(rng, Figures::new, |n, m| n / (m * m.max(3))),
        Code::ConstructionB => long_figures(rng),
        Code::Larsson => fitting(rng, Figures::larsson, |n, m| n / (2 * m) + 1),
    }
}

/// Figures that fit both, with room for a job in each payload.
pub fn movable_figures(rng: &mut Rng) -> Ranked {
    let movable = |n, q, m, b| {
        let room = Layouts::new(n, q, m, b)?.have_room();
        Figures::new(n, q, m, b).and_then(|f| room.then_some(f).ok_or(10))
    };
    ranked(&fitting(rng, movable, |n, m| n / (m * m.max(3))))
}

/// Figures that fit: short and long words, small and large alphabets, and burst lengths up to the largest.
fn fitting(rng: &mut Rng, judged: Judged, most: fn(u32, u32) -> u32) -> Figures {
    loop {
        let m = rng.between(1, MAX_RUNS as u64) as u32;
        let n = match rng.below(8) {
            0 => rng.between(3, 40),
            1 | 2 => rng.between(30, 200),
            3 => rng.between(1000, 1050),
            4 => rng.between(1025, MAX_N as u64),
            5 => rng.pick(&EDGES),
            _ => rng.between(100, 1024),
        } as u32;
        let q = match rng.below(4) {
            0 => rng.between(2, 256) as u32,
            _ => rng.pick(&[2, 2, 3, 4, 5, 7, 15, 16, 17, 255, 256, 256]),
        };
        let lengths = 1..=most(n, m);
        if let Some(f) = with_length(rng, lengths, |b| judged(n, q, m, b).ok()) {
            return f;
        }
    }
}

/// Figures with some burst length that fits, often the largest or the least.
fn with_length(
    rng: &mut Rng,
    lengths: RangeInclusive<u32>,
    judged: impl Fn(u32) -> Option<Figures>,
) -> Option<Figures> {
    let fits = |b: &u32| judged(*b).is_some();
    let largest = lengths.clone().rev().find(fits)?;
    // Runs of one position may have too many placements where longer ones don't.
    let least = lengths.clone().find(fits)?;
    let b = match rng.below(4) {
        0 => largest,
        1 => least,
        _ => rng.between(least as u64, largest as u64) as u32,
    };
    judged(b)
}

/// Construction B's figures that fit: one burst, up to a third of the word.
fn long_figures(rng: &mut Rng) -> Figures {
    loop {
        let n = match rng.below(4) {
            0 => rng.between(3, 40),
            1 => rng.between(30, 200),
            2 => rng.pick(&EDGES),
            _ => rng.between(100, MAX_N as u64),
        } as u32;
        let q = rng.pick(&[2, 2, 3, 4, 15, 16, 17, 255, 256, 256]);
        let b = match rng.below(3) {
            0 => n / 3,
            1 => 1,
            _ => rng.between(1, n as u64 / 3) as u32,
        };
        if let Ok(f) = Figures::construction_b(n, q, b) {
            return f;
        }
    }
}

/// A placement in one of several styles: any rank, packed, at the edges of blocks or sub-blocks, or one run to a part.
pub fn placement(rng: &mut Rng, f: &Figures) -> Vec<u16> {
    let style = rng.below(5);
    if style < 2 {
        return unrank(f, rng.below(f.t))[..f.m].to_vec();
    }
    let edges = edges(f);
    let edge = |rng: &mut Rng, block: usize| {
        let last = edges[block] + rng.index(3);
        last.saturating_sub(f.b)
    };
    let packed = rng.index(f.n);
    let mut wanted: Vec<usize> = (0..f.m)
        .map(|i| match style {
            2 => packed + i * f.b + rng.index(2),
            3 => {
                let block = rng.index(edges.len());
                edge(rng, block)
            }
            _ => edge(rng, (i % f.p) * edges.len() / f.p + 1) + rng.index((f.n / f.p).max(1)),
        })
        .collect();
    wanted.sort_unstable();
    clamp(f, &wanted)
}

/// Where blocks begin and the last one ends, or where sub-blocks begin and end.
fn edges(f: &Figures) -> Vec<usize> {
    if f.code == Code::Larsson {
        let begin = |i: usize| larsson::begin(f, i);
        return (0..f.p).flat_map(|i| [begin(i), begin(i) + f.r]).collect();
    }
    let layout = Layout::new(f);
    let edge = |block: usize| layout.begin[block] as usize;
    (0..=f.blocks()).map(edge).collect()
}

/// The wanted starts, moved just enough to make a placement.
fn clamp(f: &Figures, wanted: &[usize]) -> Vec<u16> {
    let mut free = 0;
    let place = |(i, &want): (usize, &usize)| {
        let start = want.max(free).min(f.n - (f.m - i) * f.b);
        free = start + f.b;
        start as u16
    };
    wanted.iter().enumerate().map(place).collect()
}

pub fn start_bytes(starts: &[u16]) -> Vec<u8> {
    starts
        .iter()
        .flat_map(|start| start.to_be_bytes())
        .collect()
}

/// A symbol below q.
pub fn symbol(rng: &mut Rng, q: u32) -> u8 {
    rng.below(q as u64) as u8
}

/// A list of symbols: random, all the same, or mostly 0.
pub fn symbols(rng: &mut Rng, q: u32, len: usize) -> Vec<u8> {
    let same = rng.pick(&[0, 1, (q - 1) as u8]);
    match rng.below(5) {
        0 => vec![same; len],
        1 => (0..len)
            .map(|_| if rng.once_in(8) { symbol(rng, q) } else { 0 })
            .collect(),
        _ => (0..len).map(|_| symbol(rng, q)).collect(),
    }
}

/// The value of a cell that can't be read; none where every byte is a symbol.
pub fn silent_value(q: u32) -> Option<u8> {
    u8::try_from(q).ok()
}

/// A list of found values: symbols, among them no, some or only silent cells.
pub fn found(rng: &mut Rng, q: u32, len: usize) -> Vec<u8> {
    let mut values = symbols(rng, q, len);
    let every = rng.pick(&[0, 0, 1, 2, 10]);
    if let (Some(silent), 1..) = (silent_value(q), every) {
        for value in values.iter_mut() {
            *value = if rng.once_in(every) { silent } else { *value };
        }
    }
    values
}

/// Puts values at will into the runs.
pub fn damage(rng: &mut Rng, f: &Figures, starts: &[u16], word: &mut [u8]) {
    for &start in starts {
        let run = start as usize..start as usize + f.b;
        word[run].copy_from_slice(&found(rng, f.q, f.b));
    }
}

/// How many values the I-blocks can spell: less than T, below 2^63, times q^m, at most 2^64. Of the Larsson code, a sub-block.
pub fn values(f: &Figures) -> u128 {
    if f.code == Code::Larsson {
        return (f.q as u128).pow(f.r as u32);
    }
    let one = (f.q as u128 - 1) * (f.q as u128).pow(f.r as u32);
    one.pow(f.m as u32)
}

/// A value at or near the least that is refused with 8, `t`, or any below it or below all that can be spelled.
pub fn value(rng: &mut Rng, f: &Figures, t: u64) -> u128 {
    let t = t as u128;
    let top = values(f) - 1;
    let any = (rng.draw() as u128) << 64 | rng.draw() as u128;
    let value = match rng.below(10) {
        0 => t - 1,
        1 => t,
        2 => t + 1,
        3 => top,
        4 => 1 << 64,
        5 => (1 << 64) + any % t,
        6 => t + any % t,
        7 => any % (top + 1),
        _ => any % t,
    };
    value.min(top)
}

/// Spells a value over the heads of the given blocks.
pub fn spell(f: &Figures, layout: &Layout, index: u64, value: u128, word: &mut [u8]) {
    let q = f.q as u128;
    let mut left = value;
    for block in (0..f.blocks())
        .rev()
        .filter(|block| index >> block & 1 == 1)
    {
        let begin = layout.begin[block] as usize;
        for symbol in word[begin + 1..=begin + f.r].iter_mut().rev() {
            *symbol = (left % q) as u8;
            left /= q;
        }
        word[begin] = (left % (q - 1)) as u8 + 1;
        left /= q - 1;
    }
}

/// The message that spells these values, of bytes or above, leftovers 0.
fn message(f: &Figures, values: &[u32]) -> Vec<u8> {
    let mut message = vec![0; f.k];
    for (symbols, &value) in message.chunks_exact_mut(width(f.q)).zip(values) {
        let mut left = value;
        for symbol in symbols.iter_mut().rev() {
            *symbol = (left % f.q) as u8;
            left /= f.q;
        }
    }
    message
}

/// The message that spells a payload, of any job number.
pub fn sound_message(f: &Figures, payload: &[u8]) -> Vec<u8> {
    let values: Vec<u32> = payload.iter().map(|&byte| byte as u32).collect();
    message(f, &values)
}

/// A message that spells a payload, but for one byte's symbols that spell a value around 256 or the largest, or for a
/// leftover symbol other than 0.
pub fn odd_message(rng: &mut Rng, f: &Figures, payload: &[u8]) -> Vec<u8> {
    let w = width(f.q);
    let mut values: Vec<u32> = payload.iter().map(|&byte| byte as u32).collect();
    let top = f.q.pow(w as u32) - 1;
    let odd = rng.pick(&[255, 256, 256, 257, top]).min(top);
    if !values.is_empty() && !rng.once_in(4) {
        let at = rng.index(values.len());
        values[at] = odd;
    }
    let mut message = message(f, &values);
    let leftover = f.k - w * values.len();
    if leftover > 0 && rng.once_in(4) {
        message[f.k - 1 - rng.index(leftover)] = rng.between(1, f.q as u64 - 1) as u8;
    }
    message
}

/// A length that is off by one, or none at all.
pub fn wrong_len(rng: &mut Rng, len: usize) -> usize {
    match rng.below(4) {
        0 if len > 0 => len - 1,
        1 if len > 0 => 0,
        2 => len + 7,
        _ => len + 1,
    }
}
