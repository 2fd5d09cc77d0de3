//! Message cells altered to other values of the alphabet, in words damaged inside their runs: the same placement is read, and the message differs
//! at exactly those positions.

use crate::judge::{Judge, Op};
use crate::make::{damage, numbers, start_bytes};
use crate::rng::Rng;
use crate::uses::{cells, Use};
use crate::words::Strip;

pub fn round(judge: &mut Judge, rng: &mut Rng, strip: &Strip) {
    let f = &strip.f;
    let slips = match rng.below(4) {
        0 => 0,
        1 => f.k.min(1),
        2 => f.k,
        _ => rng.index(f.k + 1),
    };
    let mut word = strip.word.clone();
    damage(rng, f, &strip.starts, &mut word);
    let mut message = strip.message.clone();
    let cells = cells(strip, Use::Message);
    for i in some(rng, f.k, slips) {
        // Another symbol is so many steps further, round the alphabet.
        let steps = rng.between(1, f.q as u64 - 1);
        message[i] = ((message[i] as u64 + steps) % f.q as u64) as u8;
        word[cells[i]] = message[i];
    }
    let read = judge.decode(numbers(f), &word, f.k, 2 * f.m);
    let others = read.out.iter().zip(&strip.message).filter(|(a, b)| a != b);
    let right = read.number == 0
        && read.also == start_bytes(&strip.starts)
        && read.out == message
        && others.count() == slips;
    let inputs = || format!("{f:?} {:?}, {slips} slips", strip.starts);
    let what = "a slip reaches further than its cell";
    judge.expect(Op::Decode, right, &inputs, what);
    judge.tally.count_slips(slips, f.k);
}

/// So many of the numbers below `of`.
fn some(rng: &mut Rng, of: usize, count: usize) -> Vec<usize> {
    let mut all: Vec<usize> = (0..of).collect();
    for i in 0..count {
        all.swap(i, i + rng.index(of - i));
    }
    all.truncate(count);
    all
}
