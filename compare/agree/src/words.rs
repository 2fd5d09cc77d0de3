//! Words written by one side and read by the other, words altered on purpose, refused inputs, and covering.

use second::blocks::{burst_blocks, index_blocks, pattern, Layout};
use second::choose::{rank, unrank};
use second::figures::Code;
use second::raw::DIFFERS;
use second::{index, Figures};

use crate::judge::{Judge, Op};
use crate::make::{
    damage, figures, found, numbers, placement, silent_value, spell, start_bytes, symbol, symbols,
    value, values, wrong_len,
};
use crate::rng::Rng;
use crate::sides::{PROVED, SECOND};
use crate::{larsson, silent, slips, verify};

/// A strip: figures, a placement, a message and its word.
pub struct Strip {
    pub f: Figures,
    pub starts: Vec<u16>,
    pub message: Vec<u8>,
    pub word: Vec<u8>,
}

/// One round for these figures.
pub fn round(judge: &mut Judge, rng: &mut Rng, f: Figures) {
    let strip = written(judge, rng, f);
    read_back(judge, rng, &strip);
    match f.code {
        Code::Larsson => larsson::changed(judge, rng, &strip),
        _ => changed(judge, rng, &strip),
    }
    silent::outside(judge, rng, &strip);
    verify::round(judge, rng, &strip);
    slips::round(judge, rng, &strip);
    refused_writing(judge, rng, &strip);
    refused_reading(judge, rng, &strip);
    covering(judge, rng, &f);
}

fn written(judge: &mut Judge, rng: &mut Rng, f: Figures) -> Strip {
    let starts = placement(rng, &f);
    let message = symbols(rng, f.q, f.k);
    let answer = judge.encode(numbers(&f), &start_bytes(&starts), &message, f.n);
    let inputs = || format!("{f:?} {starts:?}");
    judge.expect(
        Op::Encode,
        answer.number == 0,
        &inputs,
        "a placement was refused",
    );
    Strip {
        f,
        starts,
        message,
        word: answer.out,
    }
}

/// Damage inside the runs must not matter, whichever side wrote and whichever reads.
fn read_back(judge: &mut Judge, rng: &mut Rng, strip: &Strip) {
    let f = &strip.f;
    for writer in [PROVED, SECOND] {
        let mut word = vec![0xEE; f.n];
        (writer.encode)(
            numbers(f),
            &start_bytes(&strip.starts),
            &strip.message,
            &mut word,
        );
        damage(rng, f, &strip.starts, &mut word);
        let read = judge.decode(numbers(f), &word, f.k, 2 * f.m);
        let right = read.number == 0
            && read.out == strip.message
            && read.also == start_bytes(&strip.starts);
        let inputs = || format!("{f:?} {:?} written by {}", strip.starts, writer.name);
        judge.expect(Op::Decode, right, &inputs, "not what was written");
    }
}

/// Words of a construction with other symbols, other values, and other patterns.
fn changed(judge: &mut Judge, rng: &mut Rng, strip: &Strip) {
    for _ in 0..2 {
        altered(judge, rng, strip);
    }
    other_value(judge, rng, strip);
    any_word(judge, rng, &strip.f);
}

/// Changes symbols outside the runs: any, or those that blocks start with.
fn altered(judge: &mut Judge, rng: &mut Rng, strip: &Strip) {
    let f = &strip.f;
    let layout = Layout::new(f);
    let mut word = strip.word.clone();
    for _ in 0..rng.between(1, 3) {
        let at = match rng.below(3) {
            0 => rng.index(f.n),
            1 => layout.begin[rng.index(f.blocks())] as usize + rng.index(1 + f.r),
            _ => layout.begin[rng.index(f.blocks())] as usize,
        };
        word[at] = match rng.below(6) {
            0..3 => 0,
            3..5 => symbol(rng, f.q),
            _ => silent_value(f.q).unwrap_or(0),
        };
    }
    judge.decode(numbers(f), &word, f.k, 2 * f.m);
}

/// Spells another value over the I-blocks: a boundary one, or that of a placement close by.
fn other_value(judge: &mut Judge, rng: &mut Rng, strip: &Strip) {
    let f = &strip.f;
    let layout = Layout::new(f);
    let index = index_blocks(f, burst_blocks(f, &layout, &strip.starts));
    let bound = index::values(f, &layout, index);
    let near = index::value(f, &layout, &strip.starts) as i128 + rng.between(0, 6) as i128 - 3;
    for value in [
        value(rng, f, bound),
        near.clamp(0, bound as i128 - 1) as u128,
    ] {
        let mut word = strip.word.clone();
        spell(f, &layout, index, value, &mut word);
        let read = judge.decode(numbers(f), &word, f.k, 2 * f.m);
        let right = (read.number == 8) == (value >= bound as u128);
        let inputs = || format!("{f:?} value {value} word {word:?}");
        judge.expect(Op::Decode, right, &inputs, "8 is for a value too large");
    }
}

fn any_word(judge: &mut Judge, rng: &mut Rng, f: &Figures) {
    let word = found(rng, f.q, f.n);
    judge.decode(numbers(f), &word, f.k, 2 * f.m);
    let fixed = likely_pattern(rng, f) & all_blocks(f);
    patterned(judge, rng, f, fixed);
}

/// The set of all blocks, of which there are up to 64.
fn all_blocks(f: &Figures) -> u64 {
    u64::MAX >> (u64::BITS - f.blocks() as u32)
}

/// A set of blocks that look F, near those that the rule lists: whole parts without, or one or two in each part.
fn likely_pattern(rng: &mut Rng, f: &Figures) -> u64 {
    let whole = rng.once_in(2);
    let without = rng.draw() & rng.draw();
    let mut fixed = 0;
    for part in 0..f.p {
        let mut bits = (1u64 << f.m) - 1;
        if whole && without >> part & 1 == 1 {
            bits = 0;
        } else if whole {
            bits &= rng.draw() | 1 << rng.index(f.m);
        } else {
            let others = rng.pick(&[1, 2, 2, 2, 2, 3]);
            let first = rng.index(f.m);
            bits &= !(1 << first);
            (1..others).for_each(|i| bits &= !(1 << ((first + i) % f.m)));
        }
        fixed |= bits << (part * f.m);
    }
    fixed
}

/// A word whose blocks look F where `fixed` says, with a value at the I-blocks that often gives those very blocks. Now and then
/// a first symbol is silent.
fn patterned(judge: &mut Judge, rng: &mut Rng, f: &Figures, fixed: u64) {
    let layout = Layout::new(f);
    let mut word = symbols(rng, f.q, f.n);
    for block in 0..f.blocks() {
        let first = match silent_value(f.q) {
            Some(silent) if rng.once_in(40) => silent,
            _ => rng.between(1, f.q as u64 - 1) as u8,
        };
        let looks_fixed = fixed >> block & 1 == 1;
        word[layout.begin[block] as usize] = if looks_fixed { 0 } else { first };
    }
    if let Some(index) = pattern(f, fixed) {
        let value = fitting_value(rng, f, &layout, index);
        spell(f, &layout, index, value, &mut word);
    }
    judge.decode(numbers(f), &word, f.k, 2 * f.m);
}

fn fitting_value(rng: &mut Rng, f: &Figures, layout: &Layout, index: u64) -> u128 {
    for _ in 0..20 {
        let starts = placement(rng, f);
        if index_blocks(f, burst_blocks(f, layout, &starts)) == index {
            return index::value(f, layout, &starts) as u128;
        }
    }
    value(rng, f, index::values(f, layout, index))
}

/// Every pattern of first symbols, for figures with few blocks; `step` above 1 takes only some.
pub fn patterns(judge: &mut Judge, rng: &mut Rng, n: u32, m: u32, step: u64) {
    for q in [2, 3, 256] {
        let largest = (1..n).rev().find_map(|b| Figures::new(n, q, m, b).ok());
        let Some(f) = largest else { continue };
        patterns_of(judge, rng, &f, step);
    }
}

pub fn patterns_of(judge: &mut Judge, rng: &mut Rng, f: &Figures, step: u64) {
    let mut next = Some(rng.below(step));
    while let Some(fixed) = next.filter(|&fixed| fixed <= all_blocks(f)) {
        patterned(judge, rng, f, fixed);
        next = fixed.checked_add(rng.between(1, 2 * step - 1));
    }
}

/// One thing wrong with a writing, and sometimes several.
fn refused_writing(judge: &mut Judge, rng: &mut Rng, strip: &Strip) {
    let f = &strip.f;
    let mut starts = start_bytes(&strip.starts);
    let mut message = strip.message.clone();
    let mut word = f.n;
    for _ in 0..rng.pick(&[1, 1, 2]) {
        match rng.below(6) {
            0 => word = wrong_len(rng, word),
            1 => message.resize(wrong_len(rng, message.len()), 0),
            2 => starts.resize(wrong_len(rng, starts.len()), 0),
            3 | 4 => starts = start_bytes(&bad_starts(rng, strip)),
            _ if f.q < 256 && !message.is_empty() => {
                let at = rng.index(message.len());
                message[at] = rng.between(f.q as u64, 255) as u8;
            }
            _ => {}
        }
    }
    judge.encode(numbers(f), &starts, &message, word);
}

/// Starts too close by one, descending, past the end by one or by far, or moved at will.
pub fn bad_starts_of(rng: &mut Rng, f: &Figures, starts: &[u16]) -> Vec<u16> {
    let mut starts = starts.to_vec();
    let i = rng.index(f.m);
    match rng.below(5) {
        0 if i > 0 => starts[i] = starts[i - 1] + f.b as u16 - 1,
        1 => starts.reverse(),
        2 => starts[f.m - 1] = (f.n - f.b + 1) as u16,
        3 => starts[i] = rng.pick(&[u16::MAX, 1 << 15, f.n as u16]),
        _ => starts[i] = rng.below(f.n as u64 + 2) as u16,
    }
    starts
}

fn bad_starts(rng: &mut Rng, strip: &Strip) -> Vec<u16> {
    bad_starts_of(rng, &strip.f, &strip.starts)
}

fn refused_reading(judge: &mut Judge, rng: &mut Rng, strip: &Strip) {
    let f = &strip.f;
    let mut word = strip.word.clone();
    let (mut message, mut starts) = (f.k, 2 * f.m);
    for _ in 0..rng.pick(&[1, 1, 2]) {
        match rng.below(4) {
            0 => word.resize(wrong_len(rng, word.len()), 0),
            1 => message = wrong_len(rng, message),
            2 => starts = wrong_len(rng, starts),
            _ if f.q < 256 && !word.is_empty() => {
                let at = rng.index(word.len());
                word[at] = rng.between(f.q as u64, 255) as u8;
            }
            _ => {}
        }
    }
    judge.decode(numbers(f), &word, message, starts);
}

/// Maps worn inside a placement's runs, with or without one cell more, at random, or with a byte above 1.
fn covering(judge: &mut Judge, rng: &mut Rng, f: &Figures) {
    for _ in 0..3 {
        let mut map = vec![0; f.n];
        let starts = placement(rng, f);
        let every = rng.between(1, 4);
        let (skip, extra) = (rng.below(3), rng.below(4));
        for &start in starts.iter().skip(skip as usize) {
            (0..f.b).for_each(|i| map[start as usize + i] = rng.once_in(every) as u8);
        }
        (2..extra).for_each(|_| map[rng.index(f.n)] = 1);
        if rng.once_in(12) {
            map[rng.index(f.n)] = rng.pick(&[2, 3, 128, 255]);
        }
        let mut len = 2 * f.m;
        match rng.below(20) {
            0 => map.resize(wrong_len(rng, f.n), 0),
            1 => len = wrong_len(rng, len),
            _ => {}
        }
        judge.cover(numbers(f), &map, len);
    }
}

/// Every list of n values up to q, read, and checked against what was read from it, or else from the last that was accepted.
pub fn every_word(judge: &mut Judge, f: &Figures) {
    let values = f.q as usize + 1;
    let mut listed = (start_bytes(&unrank(f, 0)[..f.m]), vec![0; f.k]);
    for number in 0..values.pow(f.n as u32) {
        let digit = |i: u32| (number / values.pow(i) % values) as u8;
        let word: Vec<u8> = (0..f.n as u32).map(digit).collect();
        let read = judge.decode(numbers(f), &word, f.k, 2 * f.m);
        let wanted = if read.number == 0 { 0 } else { DIFFERS };
        if wanted == 0 {
            listed = (read.also, read.out);
        }
        let checked = judge.verify(numbers(f), &listed.0, &listed.1, &word);
        let inputs = || format!("{f:?} {listed:?} word {word:?}");
        let what = "not as the reader has it";
        judge.expect(Op::Verify, checked == wanted, &inputs, what);
    }
}

/// Every rank at both ends of the range, for these figures.
pub fn end_ranks(judge: &mut Judge, rng: &mut Rng, f: Figures) {
    for rank in (0..3)
        .chain(f.t.saturating_sub(3)..f.t)
        .filter(|&rank| rank < f.t)
    {
        let starts = unrank(&f, rank)[..f.m].to_vec();
        let message = symbols(rng, f.q, f.k);
        let word = judge
            .encode(numbers(&f), &start_bytes(&starts), &message, f.n)
            .out;
        let strip = Strip {
            f,
            starts,
            message,
            word,
        };
        read_back(judge, rng, &strip);
    }
}

/// Values that only differ from a rank above their low 64 bits: a reader that lost the rest would accept them.
pub fn wrapped_values(judge: &mut Judge, rng: &mut Rng) {
    let mut f = figures(rng, Code::ConstructionA);
    while values(&f) >> 64 == 0 {
        f = figures(rng, Code::ConstructionA);
    }
    let strip = written(judge, rng, f);
    let layout = Layout::new(&f);
    let index = index_blocks(&f, burst_blocks(&f, &layout, &strip.starts));
    let highest = (values(&f) >> 64) - 1;
    for high in [
        1,
        2,
        1 + rng.draw() as u128 % highest.max(1),
        highest.max(1),
    ] {
        let value = (high << 64) + rank(&f, &strip.starts) as u128;
        if value >= values(&f) {
            continue;
        }
        let mut word = strip.word.clone();
        spell(&f, &layout, index, value, &mut word);
        let read = judge.decode(numbers(&f), &word, f.k, 2 * f.m);
        let inputs = || format!("{f:?} value {value}");
        judge.expect(
            Op::Decode,
            read.number == 8,
            &inputs,
            "8 is for a value of T or more",
        );
    }
}
