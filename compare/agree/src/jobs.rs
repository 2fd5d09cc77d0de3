//! Jobs written and read on both sides, with tables and payloads at will.

use second::figures::Code;
use second::job::{has_room, payload_len};
use second::Figures;

use crate::calls::{bad_table, number, start, table};
use crate::judge::{hex, Judge, Op};
use crate::make::{
    damage, found, numbers, odd_message, placement, silent_value, sound_message, start_bytes,
    symbols, wrong_len,
};
use crate::orders::{MARKS, POWERS};
use crate::rng::Rng;
use crate::sides::Numbers;
use crate::silent::Silent;
use crate::spoilt;
use crate::words::{bad_starts_of, Strip};

/// One round for these figures.
pub fn round(judge: &mut Judge, rng: &mut Rng, f: Figures) {
    let table = table(rng);
    let starts = placement(rng, &f);
    let payload = payload(rng, &f, &table);
    let word = judge.job_write(numbers(&f), &table, &start_bytes(&starts), &payload, f.n);
    if word.number == 0 {
        read_back(judge, rng, &f, &table, &starts, word.out, &payload);
    }
    if has_room(&f) {
        spoilt(judge, rng, &f, &table);
        silent(judge, rng, &f, &table);
    }
    spelled(judge, rng, &f, &table);
    oddly_spelled(judge, rng, &f, &table);
    refused_writing(judge, rng, &f, &table, &starts);
    refused_reading(judge, rng, &f, &table);
    zero(judge, rng, &f, &starts);
}

/// K bytes whose number is mostly one of the table's.
fn payload(rng: &mut Rng, f: &Figures, table: &[u8]) -> Vec<u8> {
    let mut payload = rng.bytes(payload_len(f));
    if payload.len() >= 4 {
        payload[..4].copy_from_slice(&known_number(rng, table).to_be_bytes());
    }
    payload
}

/// A number that is mostly one of the table's.
pub fn known_number(rng: &mut Rng, table: &[u8]) -> u32 {
    let held: Vec<&[u8]> = table.chunks_exact(5).filter(|slot| slot[0] != 0).collect();
    match held.len() {
        0 => number(rng, 70),
        _ if rng.once_in(5) => number(rng, 70),
        len => {
            let slot = held[rng.index(len)];
            u32::from_be_bytes([slot[1], slot[2], slot[3], slot[4]])
        }
    }
}

fn read_back(
    judge: &mut Judge,
    rng: &mut Rng,
    f: &Figures,
    table: &[u8],
    starts: &[u16],
    mut word: Vec<u8>,
    payload: &[u8],
) {
    damage(rng, f, starts, &mut word);
    let read = judge.job_read(numbers(f), table, &word, payload.len());
    let right = read.number == 0 && read.out == payload;
    judge.expect(
        Op::JobRead,
        right,
        &|| format!("{f:?} {starts:?}"),
        "not what was written",
    );
    // The same word under another table, and with a cell changed, or silent.
    judge.job_read(numbers(f), &self::table(rng), &word, payload.len());
    let at = rng.index(f.n);
    word[at] = match silent_value(f.q) {
        Some(silent) if rng.once_in(2) => silent,
        _ => rng.byte(),
    };
    judge.job_read(numbers(f), table, &word, payload.len());
}

/// The strip of a payload, of any job number.
pub fn written(judge: &mut Judge, f: Figures, starts: Vec<u16>, payload: &[u8]) -> Strip {
    let message = sound_message(&f, payload);
    let answer = judge.encode(numbers(&f), &start_bytes(&starts), &message, f.n);
    let word = answer.out;
    Strip {
        f,
        starts,
        message,
        word,
    }
}

/// The strip of a job that is mostly one of the table's.
fn strip(judge: &mut Judge, rng: &mut Rng, f: &Figures, table: &[u8]) -> Strip {
    let payload = payload(rng, f, table);
    let starts = placement(rng, f);
    written(judge, *f, starts, &payload)
}

/// A strip spoilt outside its runs: what the word reader refuses, the others refuse likewise.
fn spoilt(judge: &mut Judge, rng: &mut Rng, f: &Figures, table: &[u8]) {
    let strip = strip(judge, rng, f, table);
    let word = spoilt::spoilt(rng, &strip);
    let read = judge.decode(numbers(f), &word, f.k, 2 * f.m).number;
    let job = judge.job_read(numbers(f), table, &word, payload_len(f));
    let order = judge.prescription_read(numbers(f), table, &word, MARKS, POWERS);
    let job_right = [0, 10, 12, 14, 23].contains(&job.number);
    let order_right = order.number == 16 || order.number == job.number;
    let right = match read {
        0 => job_right && order_right,
        refusal => [job.number, order.number] == [refusal; 2],
    };
    let inputs = || format!("{f:?} word {}", hex(&word));
    judge.expect(Op::JobRead, right, &inputs, "not what the word reader says");
}

/// Silent cells outside the runs.
fn silent(judge: &mut Judge, rng: &mut Rng, f: &Figures, table: &[u8]) {
    let strip = strip(judge, rng, f, table);
    if let Some(silent) = Silent::new(rng, &strip) {
        let numbers = numbers(f);
        let job = judge.job_read(numbers, table, &silent.word, payload_len(f));
        silent.judge(judge, Op::JobRead.under(numbers), job.number);
        let order = judge.prescription_read(numbers, table, &silent.word, MARKS, POWERS);
        silent.judge(judge, Op::PrescriptionRead.under(numbers), order.number);
    }
}

/// A word of number 0 under a table that lacks it or holds it alone: it is never written, and read where it is open.
fn zero(judge: &mut Judge, rng: &mut Rng, f: &Figures, starts: &[u16]) {
    let table = start(rng);
    let mut payload = rng.bytes(payload_len(f));
    if payload.len() < 5 {
        return;
    }
    payload[..4].fill(0);
    let inputs = || format!("{f:?} {starts:?}, number 0");
    let written = judge.job_write(numbers(f), &table, &start_bytes(starts), &payload, f.n);
    judge.expect(Op::JobWrite, written.number == 17, &inputs, "0 is no job");
    let message = sound_message(f, &payload);
    let mut word = judge
        .encode(numbers(f), &start_bytes(starts), &message, f.n)
        .out;
    damage(rng, f, starts, &mut word);
    let read = judge.job_read(numbers(f), &table, &word, payload.len());
    let right = match table.chunks_exact(5).map(|slot| slot[0]).max() {
        Some(1) => read.number == 0 && read.out == payload,
        Some(2 | 3 | 5) => read.number == 12,
        Some(4) => read.number == 23,
        _ => read.number == 14,
    };
    judge.expect(Op::JobRead, right, &inputs, "not what the table says of 0");
}

/// A message that needn't spell bytes: mostly sound spellings with a symbol changed, or any.
fn spelled(judge: &mut Judge, rng: &mut Rng, f: &Figures, table: &[u8]) {
    let starts = start_bytes(&placement(rng, f));
    let message = symbols(rng, f.q, f.k);
    let mut word = judge.encode(numbers(f), &starts, &message, f.n).out;
    if rng.once_in(2) {
        let payload = payload(rng, f, table);
        let written = judge.job_write(numbers(f), table, &starts, &payload, f.n);
        if written.number == 0 {
            word = written.out;
            let at = f.n - 1 - rng.index(f.n.min(12));
            word[at] = rng.below(f.q as u64) as u8;
        }
    }
    judge.job_read(numbers(f), table, &word, payload_len(f));
}

/// A message that just spells a payload, or just doesn't.
fn oddly_spelled(judge: &mut Judge, rng: &mut Rng, f: &Figures, table: &[u8]) {
    let starts = start_bytes(&placement(rng, f));
    let payload = payload(rng, f, table);
    let message = odd_message(rng, f, &payload);
    let word = judge.encode(numbers(f), &starts, &message, f.n).out;
    judge.job_read(numbers(f), table, &word, payload.len());
}

fn refused_writing(judge: &mut Judge, rng: &mut Rng, f: &Figures, good: &[u8], placement: &[u16]) {
    let mut table = good.to_vec();
    let mut starts = start_bytes(placement);
    let mut payload = payload(rng, f, &table);
    let (mut word, mut figures) = (f.n, numbers(f));
    for _ in 0..rng.pick(&[1, 1, 2, 3]) {
        match rng.below(7) {
            0 => word = wrong_len(rng, word),
            1 => payload.resize(wrong_len(rng, payload.len()), 0),
            2 => starts.resize(wrong_len(rng, starts.len()), 0),
            3 | 4 => starts = start_bytes(&bad_starts_of(rng, f, placement)),
            5 => table = bad_table(rng),
            _ => figures = off(rng, figures),
        }
    }
    judge.job_write(figures, &table, &starts, &payload, word);
}

fn refused_reading(judge: &mut Judge, rng: &mut Rng, f: &Figures, good: &[u8]) {
    let mut table = good.to_vec();
    let mut word = found(rng, f.q, f.n);
    let (mut payload, mut figures) = (payload_len(f), numbers(f));
    for _ in 0..rng.pick(&[0, 1, 1, 2, 3]) {
        match rng.below(5) {
            0 => word.resize(wrong_len(rng, word.len()), 0),
            1 => payload = wrong_len(rng, payload),
            2 => table = bad_table(rng),
            3 if !word.is_empty() => {
                let at = rng.index(word.len());
                word[at] = rng.byte();
            }
            _ => figures = off(rng, figures),
        }
    }
    judge.job_read(figures, &table, &word, payload);
}

/// Figures with one of them off.
pub fn off(rng: &mut Rng, numbers: Numbers) -> Numbers {
    let (mut n, mut q, mut m, mut b) = numbers.ranked();
    let share = match numbers.code() {
        Code::ConstructionB => n / 3 + 1,
        _ => n / m.max(1) + 1,
    };
    match rng.below(6) {
        0 => n = rng.pick(&[0, 2, 4097]),
        1 => q = rng.pick(&[0, 1, 257]),
        2 => m = rng.pick(&[0, 9]),
        3 => b = 0,
        4 => b = share,
        _ => b = n,
    }
    Numbers::of(numbers.code(), (n, q, m, b))
}
