//! The figures of a strip: its code, what is given (n, q, m, b), what follows from it, and refusals 1 and 2.

use crate::choose::choose;

pub const MIN_N: u32 = 3;
pub const MAX_N: usize = 4096;
pub const MAX_RUNS: usize = 8;
pub const MAX_BLOCKS: usize = MAX_RUNS * MAX_RUNS;

/// How a word tells where its runs are.
#[derive(Clone, Copy, Debug, PartialEq, Eq)]
pub enum Code {
    /// Up to `MAX_RUNS` runs: the I-blocks spell the placement's rank.
    ConstructionA,
    /// One run, which may be as long as a part: the I-block spells how far into its part the run ends.
    ConstructionB,
    /// Up to `MAX_RUNS` runs: sub-blocks repeat the placement's rank.
    Larsson,
}

/// Figures that fit.
#[derive(Clone, Copy, Debug, PartialEq, Eq)]
pub struct Figures {
    pub code: Code,
    pub n: usize,
    pub q: u32,
    pub m: usize,
    pub b: usize,
    /// How many parts the word is cut into; of the Larsson code, how many sub-blocks it has.
    pub p: usize,
    /// How many symbols of an I-block follow its first one; of the Larsson code R, how many a sub-block has.
    pub r: usize,
    /// How many symbols the message has.
    pub k: usize,
    /// T, how many placements there are; at most `MAX_COUNT`.
    pub t: u64,
}

impl Figures {
    /// Construction A's figures.
    pub fn new(n: u32, q: u32, m: u32, b: u32) -> Result<Figures, u8> {
        let t = placements(n, q, m, b)?;
        let (n, m, b) = (n as usize, m as usize, b as usize);
        let p = if m <= 2 { 3 } else { m };
        let r = symbols_after_first(q, m, t);
        let block = n / (p * m);
        if r >= block || b > block - r {
            return Err(2);
        }
        let k = n - m * (b + p + r - 1);
        Ok(Figures {
            code: Code::ConstructionA,
            n,
            q,
            m,
            b,
            p,
            r,
            k,
            t,
        })
    }

    /// Construction B's figures: one run of b positions, and three parts.
    pub fn construction_b(n: u32, q: u32, b: u32) -> Result<Figures, u8> {
        in_range(n, q, 1, b)?;
        let part = n / 3;
        let r = symbols_after_first(q, 1, n.div_ceil(3) as u64);
        if b > part || r >= part as usize {
            return Err(2);
        }
        let (n, b) = (n as usize, b as usize);
        Ok(Figures {
            code: Code::ConstructionB,
            n,
            q,
            m: 1,
            b,
            p: 3,
            r,
            k: n - b - r - 2,
            t: (n - b + 1) as u64,
        })
    }

    /// The Larsson code's figures.
    pub fn larsson(n: u32, q: u32, m: u32, b: u32) -> Result<Figures, u8> {
        let t = placements(n, q, m, b)?;
        let (n, m, b) = (n as usize, m as usize, b as usize);
        let (p, r) = (2 * m + 1, symbols(q, t));
        if p * r > n || b > (n - p * r) / (p - 1) + 1 {
            return Err(2);
        }
        Ok(Figures {
            code: Code::Larsson,
            n,
            q,
            m,
            b,
            p,
            r,
            k: n - m * b - (m + 1) * r,
            t,
        })
    }

    pub fn blocks(&self) -> usize {
        self.p * self.m
    }

    /// Whether every byte is a symbol.
    pub fn symbols(&self, bytes: &[u8]) -> bool {
        largest(bytes) < self.q
    }

    /// Whether every byte is what a head may report: a symbol, or q for a cell that it can't read.
    pub fn found(&self, bytes: &[u8]) -> bool {
        largest(bytes) <= self.q
    }

    /// Whether some byte is q. None is where q is 256.
    pub fn silent(&self, bytes: &[u8]) -> bool {
        bytes.iter().any(|&byte| byte as u32 == self.q)
    }
}

/// Refusal 1 for a figure out of range.
fn in_range(n: u32, q: u32, m: u32, b: u32) -> Result<(), u8> {
    let right = (MIN_N..=MAX_N as u32).contains(&n)
        && (2..=256).contains(&q)
        && (1..=MAX_RUNS as u32).contains(&m)
        && b >= 1;
    if right {
        Ok(())
    } else {
        Err(1)
    }
}

/// T, how many placements there are. Refusal 1, and 2 where the runs are longer than the word or T exceeds `MAX_COUNT`.
fn placements(n: u32, q: u32, m: u32, b: u32) -> Result<u64, u8> {
    in_range(n, q, m, b)?;
    if m as u64 * b as u64 > n as u64 {
        return Err(2);
    }
    choose((n - m * b + m) as usize, m as usize).ok_or(2)
}

fn largest(bytes: &[u8]) -> u32 {
    bytes.iter().fold(0, |a, &b| a.max(b)) as u32
}

/// r: the least for which m I-blocks spell at least `wanted` values.
fn symbols_after_first(q: u32, m: usize, wanted: u64) -> usize {
    let mut r = 0;
    let mut values = (q as u64 - 1).saturating_pow(m as u32);
    // `wanted` is below 2^63, so what 64 bits don't hold is large enough.
    while values < wanted {
        values = values.saturating_mul((q as u64).saturating_pow(m as u32));
        r += 1;
    }
    r
}

/// R: the least number of symbols that spell at least `wanted` values, of which one needs none.
fn symbols(q: u32, wanted: u64) -> usize {
    let mut count = 0;
    let mut values = 1u64;
    while values < wanted {
        values = values.saturating_mul(q as u64);
        count += 1;
    }
    count
}
