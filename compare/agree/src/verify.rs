//! Words checked against lists: agreeing ones, ones altered inside and outside the runs, other lists, and malformed ones.

use second::raw::DIFFERS;
use second::Figures;

use crate::judge::{all, hex, Judge, Op};
use crate::make::{damage, found, numbers, placement, start_bytes, symbol, symbols, wrong_len};
use crate::rng::Rng;
use crate::words::{bad_starts_of, Strip};

pub fn round(judge: &mut Judge, rng: &mut Rng, strip: &Strip) {
    agreeing(judge, rng, strip);
    altered(judge, rng, strip);
    other_list(judge, rng, strip);
    refused(judge, rng, strip);
}

/// Any values up to q inside the runs.
fn agreeing(judge: &mut Judge, rng: &mut Rng, strip: &Strip) {
    let f = &strip.f;
    let mut word = strip.word.clone();
    damage(rng, f, &strip.starts, &mut word);
    let starts = start_bytes(&strip.starts);
    let answer = judge.verify(numbers(f), &starts, &strip.message, &word);
    let inputs = || format!("{f:?} {:?} word {}", strip.starts, hex(&word));
    let what = "what the runs hold doesn't matter";
    judge.expect(Op::Verify, answer == 0, &inputs, what);
}

fn inside(f: &Figures, starts: &[u16], cell: usize) -> bool {
    let mut runs = starts.iter().map(|&start| start as usize);
    runs.any(|start| (start..start + f.b).contains(&cell))
}

/// Some cells changed to values up to q, at will or just outside a run: yes exactly where all that differ are inside.
fn altered(judge: &mut Judge, rng: &mut Rng, strip: &Strip) {
    let f = &strip.f;
    let mut word = strip.word.clone();
    damage(rng, f, &strip.starts, &mut word);
    for _ in 0..rng.pick(&[1, 1, 2]) {
        let start = rng.pick(&strip.starts) as usize;
        let cell = match rng.below(4) {
            0 => start.saturating_sub(1),
            1 => (start + f.b).min(f.n - 1),
            2 => start + rng.index(f.b),
            _ => rng.index(f.n),
        };
        word[cell] = found(rng, f.q, 1)[0];
    }
    let agrees = |cell: usize| word[cell] == strip.word[cell] || inside(f, &strip.starts, cell);
    let wanted = if (0..f.n).all(agrees) { 0 } else { DIFFERS };
    let answer = law(judge, f, &strip.starts, &strip.message, &word);
    let inputs = || format!("{f:?} {:?} word {}", strip.starts, hex(&word));
    let what = "the cells outside the runs decide";
    judge.expect(Op::Verify, answer == wanted, &inputs, what);
}

/// Yes exactly when the reader gives back this placement and message.
fn law(judge: &mut Judge, f: &Figures, starts: &[u16], message: &[u8], word: &[u8]) -> u8 {
    let starts = start_bytes(starts);
    let answer = judge.verify(numbers(f), &starts, message, word);
    let read = judge.decode(numbers(f), word, f.k, 2 * f.m);
    let same = read.number == 0 && read.out == message && read.also == starts;
    let bytes = [&starts, message, word];
    let inputs = || format!("{f:?} starts, message, word {}", all(&bytes));
    let right = answer == if same { 0 } else { DIFFERS };
    judge.expect(Op::Verify, right, &inputs, "not as the reader has it");
    answer
}

/// The list has another placement or another message.
fn other_list(judge: &mut Judge, rng: &mut Rng, strip: &Strip) {
    let f = &strip.f;
    let (mut starts, mut message) = (strip.starts.clone(), strip.message.clone());
    match rng.below(4) {
        0 => starts = placement(rng, f),
        1 => message = symbols(rng, f.q, f.k),
        2 if f.k > 0 => {
            let at = rng.index(f.k);
            message[at] = symbol(rng, f.q);
        }
        _ => {}
    }
    let mut word = strip.word.clone();
    damage(rng, f, &strip.starts, &mut word);
    law(judge, f, &starts, &message, &word);
}

/// One thing wrong, and sometimes several; a value above q in the word is wrong inside a run too.
fn refused(judge: &mut Judge, rng: &mut Rng, strip: &Strip) {
    let f = &strip.f;
    let mut starts = start_bytes(&strip.starts);
    let (mut message, mut word) = (strip.message.clone(), strip.word.clone());
    let high = |rng: &mut Rng| rng.between((f.q as u64).min(255), 255) as u8;
    for _ in 0..rng.pick(&[1, 1, 2, 3]) {
        match rng.below(8) {
            0 => word.resize(wrong_len(rng, word.len()), 0),
            1 => message.resize(wrong_len(rng, message.len()), 0),
            2 => starts.resize(wrong_len(rng, starts.len()), 0),
            3 | 4 => starts = start_bytes(&bad_starts_of(rng, f, &strip.starts)),
            5 if !message.is_empty() => {
                let at = rng.index(message.len());
                message[at] = high(rng);
            }
            6 if !word.is_empty() => {
                let at = rng.index(word.len());
                word[at] = high(rng);
            }
            _ if word.len() == f.n => {
                let at = rng.pick(&strip.starts) as usize + rng.index(f.b);
                word[at] = high(rng);
            }
            _ => {}
        }
    }
    judge.verify(numbers(f), &starts, &message, &word);
}
