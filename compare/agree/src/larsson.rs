//! The Larsson code: its figures at the boundaries, document 01's job, every word of the shortest strips, and words that fall short of a majority.

use std::ops::Range;

use second::choose::unrank;
use second::figures::MAX_RUNS;
use second::larsson::{bearers, begin};
use second::Figures;

use crate::calls::TABLE;
use crate::judge::{hex, Judge, Op};
use crate::make::{found, numbers, silent_value, symbol, symbols, value, values};
use crate::rng::Rng;
use crate::sides::Numbers;
use crate::words::{self, Strip};

/// Each q, and the longest strips of which every word is read. Several runs and several placements come with 10 alone.
const EVERY_WORD: [(u32, u32); 5] = [(2, 12), (3, 9), (4, 7), (5, 6), (10, 5)];

pub fn run(judge: &mut Judge, rng: &mut Rng) {
    limits(judge);
    one_code_alone(judge);
    papers_strip(judge);
    papers_job(judge);
    for (q, longest) in EVERY_WORD {
        for n in 3..=longest {
            each_fitting(n, q, |f| words::every_word(judge, &f));
        }
    }
    for (n, q, m, b) in boundaries() {
        if let Ok(f) = Figures::larsson(n, q, m, b) {
            words::round(judge, rng, f);
            words::end_ranks(judge, rng, f);
            (0..20).for_each(|_| votes(judge, rng, &f));
        }
    }
}

/// Calls `visit` with all figures of so many symbols that fit.
fn each_fitting(n: u32, q: u32, mut visit: impl FnMut(Figures)) {
    for m in 1..=MAX_RUNS as u32 {
        (1..=n / m)
            .filter_map(|b| Figures::larsson(n, q, m, b).ok())
            .for_each(&mut visit);
    }
}

/// What the lengths alone tell of figures: 3 where they fit.
fn limits(judge: &mut Judge) {
    for (n, q, m, b, number) in [
        (20, 2, 1, 3, 3),
        (20, 2, 1, 4, 2),
        (12, 2, 1, 1, 3),
        (11, 2, 1, 1, 2),
        // One placement: bursts of 1 or 2.
        (3, 2, 3, 1, 3),
        (6, 2, 3, 2, 3),
        (9, 2, 3, 3, 2),
        (8, 2, 8, 1, 3),
        (8, 2, 8, 2, 2),
        (4096, 256, 1, 2046, 3),
        (4096, 256, 1, 2047, 2),
        (4096, 256, 6, 333, 3),
        (4096, 256, 6, 334, 2),
        (3343, 256, 7, 231, 3),
        (3343, 256, 7, 230, 2),
        (3344, 256, 7, 231, 2),
        (1631, 256, 8, 94, 3),
        (1631, 256, 8, 93, 2),
        (1632, 256, 8, 94, 2),
        (888, 256, 8, 1, 2),
        (888, 256, 8, 2, 3),
        (4097, 256, 1, 4096, 1),
        (4096, 257, 1, 4096, 1),
        (4096, 1, 1, 4096, 1),
        (4096, 256, 9, 4096, 1),
        (4096, 256, 0, 4096, 1),
        (4096, 256, 1, 0, 1),
        (2, 2, 1, 1, 1),
    ] {
        let f = Numbers::Larsson((n, q, m, b));
        let answer = judge.decode(f, &[], 0, 1).number;
        let inputs = || format!("{f:?} is {number}");
        let what = "not what the documents say";
        judge.expect(Op::Figures, answer == number, &inputs, what);
    }
}

/// Figures that this code and Construction A take, or one of them.
fn one_code_alone(judge: &mut Judge) {
    for ((n, q, m, b), larsson, construction_a) in [
        ((3, 2, 3, 1), 3, 2),
        ((6, 5, 2, 1), 2, 3),
        ((3, 4, 1, 1), 3, 3),
        ((3, 2, 1, 1), 2, 2),
    ] {
        let answers = [
            Numbers::Larsson((n, q, m, b)),
            Numbers::Ranked((n, q, m, b)),
        ];
        let answers = answers.map(|f| judge.decode(f, &[], 0, 1).number);
        let inputs = || format!("n {n}, q {q}, m {m}, b {b}: {answers:?}");
        let right = answers == [larsson, construction_a];
        judge.expect(Op::Figures, right, &inputs, "not what the documents say");
    }
}

/// n 20, q 2, m 1, b 3: R is 5 and k is 7. Sub-blocks begin at 0, 7 and 15; the run from 9 touches the second.
fn papers_strip(judge: &mut Judge) {
    let f = Numbers::Larsson((20, 2, 1, 3));
    let written = judge.encode(f, &[0, 9], &[1; 7], 20);
    let wanted = b"01001111100011101001".map(|digit| digit - b'0');
    let right = written.number == 0 && written.out == wanted;
    let what = "not what the documents say";
    judge.expect(Op::Encode, right, &|| format!("{f:?}"), what);
    for (word, number) in [
        (b"01001111101011101001", 0),
        (b"01001111122211101001", 0),
        (b"01001111132211101001", 4),
        // No majority: three values, and two sub-blocks with the same silent cell.
        (b"01001111100011101011", 21),
        (b"01002111100011101002", 21),
        // T is 18; 17 is the last rank.
        (b"10010111100011110010", 8),
        (b"10001111000111111222", 0),
        // The value stands in the touched sub-block and not in the third; the third has a silent cell.
        (b"01001110100111111111", 9),
        (b"01001110100111101002", 9),
        (b"01001111100011201001", 19),
        (b"01001112100011101001", 19),
        (b"00000000000000000000", 0),
    ] {
        let found = word.map(|digit| digit - b'0');
        let answer = judge.decode(f, &found, 7, 2).number;
        let inputs = || format!("{f:?} {} is {number}", String::from_utf8_lossy(word));
        judge.expect(Op::Decode, answer == number, &inputs, what);
    }
}

/// Document 01's job on an older tray: sub-blocks at 0, 7 and 14, of which the run from 6 touches the second. T is 14, and no prescription has room.
fn papers_job(judge: &mut Judge) {
    let f = Numbers::Larsson((15, 256, 1, 2));
    let mut table = [0; TABLE];
    let unopened = judge.job_write(f, &table, &[0, 6], b"\0\0\0\x07ABCDEFG", 15);
    (table[0], table[4]) = (1, 7);
    let written = judge.job_write(f, &table, &[0, 6], b"\0\0\0\x07ABCDEFG", 15);
    let word = *b"\x06\0\0\0\x07A\0\0BCDEFG\x06";
    let right = (unopened.number, written.number) == (14, 0) && written.out == word;
    let what = "not what the documents say";
    judge.expect(Op::JobWrite, right, &|| format!("{f:?}"), what);
    for (values, wanted) in [
        ([6, 255, 6], [0, 0, 16]),
        ([6, 6, 7], [9; 3]),
        ([14, 0, 14], [8; 3]),
        ([6, 7, 8], [21; 3]),
    ] {
        let mut found = word;
        (found[0], found[7], found[14]) = (values[0], values[1], values[2]);
        let answers = judge.readers(f, &table, &found, 11);
        let inputs = || format!("{f:?} {values:?}: {answers:?}");
        judge.expect(Op::JobRead, answers == wanted, &inputs, what);
    }
}

/// Figures at a boundary: the shortest, the largest b and the least, one placement, values that 64 bits don't hold, and the longest.
fn boundaries() -> Vec<(u32, u32, u32, u32)> {
    let mut all = vec![
        (4096, 256, 1, 2046),
        (4096, 2, 1, 2030),
        (4096, 256, 6, 333),
        (4096, 2, 6, 1),
        (4096, 256, 6, 1),
        (3343, 256, 7, 231),
        (1631, 256, 8, 94),
        (887, 17, 8, 1),
        (887, 2, 8, 1),
        (887, 256, 8, 1),
        (888, 256, 8, 2),
    ];
    for m in 1..=MAX_RUNS as u32 {
        all.extend([(m.max(3), 2, m, 1), (2 * m, 2, m, 2)]);
        for n in (3..=24).chain([60, 255, 256, 257]) {
            for q in [2, 3, 16, 255, 256] {
                let fits = |&b: &u32| Figures::larsson(n, q, m, b).is_ok();
                let largest = (1..=n / m).rev().find(fits);
                all.extend((1..=n / m).find(fits).map(|b| (n, q, m, b)));
                all.extend(largest.map(|b| (n, q, m, b)));
            }
        }
    }
    all
}

fn sub_block(f: &Figures, i: usize) -> Range<usize> {
    begin(f, i)..begin(f, i) + f.r
}

/// How many sub-blocks without a silent cell hold the same, at most.
pub fn most_votes(f: &Figures, word: &[u8]) -> usize {
    let held: Vec<&[u8]> = (0..f.p).map(|i| &word[sub_block(f, i)]).collect();
    let spoken = held.iter().filter(|symbols| !f.silent(symbols));
    spoken
        .map(|symbols| held.iter().filter(|other| other == &symbols).count())
        .max()
        .unwrap_or(0)
}

/// The word of a strip with other symbols, and words with other values and votes.
pub fn changed(judge: &mut Judge, rng: &mut Rng, strip: &Strip) {
    let f = &strip.f;
    let mut word = strip.word.clone();
    for _ in 0..rng.between(1, 3) {
        let at = match rng.below(2) {
            0 => rng.index(f.n),
            _ => (begin(f, rng.index(f.p)) + rng.index(f.r + 1)).min(f.n - 1),
        };
        word[at] = match rng.below(4) {
            0 => silent_value(f.q).unwrap_or(0),
            _ => symbol(rng, f.q),
        };
    }
    judged(judge, f, &word);
    judged(judge, f, &found(rng, f.q, f.n));
    for _ in 0..3 {
        votes(judge, rng, f);
    }
}

/// A word with a value in so many sub-blocks.
pub struct Votes {
    value: u128,
    count: usize,
    pub word: Vec<u8>,
}

/// A value in m sub-blocks, in m + 1 or in more, and others in the rest; often the value of a placement, and in its bearers. Now and then a sub-block
/// has a silent cell.
pub fn voted(rng: &mut Rng, f: &Figures) -> Votes {
    let mut word = symbols(rng, f.q, f.n);
    let value = value(rng, f, f.t);
    let count = rng.pick(&[f.m, f.m + 1, f.m + 1, f.m + 2]).min(f.p);
    let mut order: Vec<usize> = (0..f.p).map(|i| begin(f, i)).collect();
    (0..f.p).for_each(|i| order.swap(i, rng.index(f.p)));
    if value < f.t as u128 && rng.once_in(2) {
        let starts = &unrank(f, value as u64)[..f.m];
        let bearing: Vec<usize> = bearers(f, starts).collect();
        order.sort_by_key(|at| !bearing.contains(at));
    }
    let others = if rng.once_in(2) { 1 } else { f.p as u128 };
    for (i, &at) in order.iter().enumerate() {
        let other = value + 1 + i as u128 % others;
        let held = if i < count { value } else { other };
        spell(f, held, &mut word[at..at + f.r]);
    }
    if let (Some(silent), true) = (silent_value(f.q), f.r > 0 && rng.once_in(4)) {
        word[rng.pick(&order) + rng.index(f.r)] = silent;
    }
    Votes { value, count, word }
}

fn votes(judge: &mut Judge, rng: &mut Rng, f: &Figures) {
    let Votes { value, count, word } = voted(rng, f);
    let number = judged(judge, f, &word);
    if most_votes(f, &word) > f.m && count > f.m {
        let right = (number == 8) == (value >= f.t as u128);
        let inputs = || format!("{f:?} value {value} word {}", hex(&word));
        judge.expect(Op::Decode, right, &inputs, "8 is for a value of T or more");
    }
}

/// The last digits of a value, most significant first.
fn spell(f: &Figures, value: u128, symbols: &mut [u8]) {
    let mut left = value % values(f);
    for symbol in symbols.iter_mut().rev() {
        *symbol = (left % f.q as u128) as u8;
        left /= f.q as u128;
    }
}

/// Reads a word of symbols and silent cells: 21 is for one without a majority, and for no other.
fn judged(judge: &mut Judge, f: &Figures, word: &[u8]) -> u8 {
    let number = judge.decode(numbers(f), word, f.k, 2 * f.m).number;
    let right = (number == 21) == (most_votes(f, word) <= f.m);
    let inputs = || format!("{f:?} word {}", hex(word));
    judge.expect(Op::Decode, right, &inputs, "21 is for no majority");
    number
}
