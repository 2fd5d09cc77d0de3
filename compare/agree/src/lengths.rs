//! Buffers whose lengths are right in their low 16 or 32 bits alone: all are refused with 3.

use burgzemi::Ranked;

use crate::calls::TABLE;
use crate::judge::{Judge, Op};
use crate::kinds::CODES;
use crate::sides::{EyeNumbers, Numbers, PrescriptionNumbers, Side, PROVED, SECOND};
use crate::ways::WAYS;

/// Document 01's transfer example: n 15, k and K 11, one start. Each code has these lengths.
const EXAMPLE: Ranked = (15, 256, 1, 2);
const WORD: usize = 15;
const PAYLOAD: usize = 11;
const PLANO: EyeNumbers = (0, 0.0, 0.0, 0);
const ORDER: PrescriptionNumbers = (PLANO, PLANO, 60.0);

/// A call that takes one buffer of a wrong length.
type Call<'a> = &'a mut dyn FnMut(&mut [u8]) -> u8;

/// Each call on a word, with one length replaced; `with` lends a buffer that is too long.
fn word_calls(side: &Side, f: Numbers, with: &mut dyn FnMut(usize, Call) -> u8) -> [u8; 11] {
    let (mut word, mut payload, mut starts) = ([0; WORD], [0; PAYLOAD], [0; 2]);
    [
        with(2, &mut |long| (side.encode)(f, long, &payload, &mut word)),
        with(PAYLOAD, &mut |long| {
            (side.encode)(f, &starts, long, &mut word)
        }),
        with(WORD, &mut |long| (side.encode)(f, &starts, &payload, long)),
        with(WORD, &mut |long| {
            (side.decode)(f, long, &mut payload, &mut starts)
        }),
        with(PAYLOAD, &mut |long| {
            (side.decode)(f, &word, long, &mut starts)
        }),
        with(2, &mut |long| (side.decode)(f, &word, &mut payload, long)),
        with(WORD, &mut |long| (side.cover)(f, long, &mut starts)),
        with(2, &mut |long| (side.cover)(f, &word, long)),
        with(2, &mut |long| (side.verify)(f, long, &payload, &word)),
        with(PAYLOAD, &mut |long| (side.verify)(f, &starts, long, &word)),
        with(WORD, &mut |long| (side.verify)(f, &starts, &payload, long)),
    ]
}

/// Likewise those on two words side by side.
fn lane_calls(side: &Side, f: Numbers, with: &mut dyn FnMut(usize, Call) -> u8) -> [u8; 4] {
    let mut two = [0; 2 * WORD];
    [
        with(2 * WORD, &mut |long| {
            (side.interleave)(f, 2, long, &mut two)
        }),
        with(2 * WORD, &mut |long| (side.interleave)(f, 2, &two, long)),
        with(2 * WORD, &mut |long| {
            (side.deinterleave)(f, 2, long, &mut two)
        }),
        with(2 * WORD, &mut |long| (side.deinterleave)(f, 2, &two, long)),
    ]
}

/// Likewise each call with a table.
fn job_calls(side: &Side, f: Numbers, with: &mut dyn FnMut(usize, Call) -> u8) -> [u8; 8] {
    let (mut word, mut payload, starts) = ([0; WORD], [0; PAYLOAD], [0; 2]);
    let mut table = [0; TABLE];
    (table[0], table[4], payload[3]) = (1, 1, 1);
    [
        with(TABLE, &mut |long| (side.open)(long, 2)),
        with(TABLE, &mut |long| {
            (side.job_write)(f, long, &starts, &payload, &mut word)
        }),
        with(2, &mut |long| {
            (side.job_write)(f, &table, long, &payload, &mut word)
        }),
        with(PAYLOAD, &mut |long| {
            (side.job_write)(f, &table, &starts, long, &mut word)
        }),
        with(WORD, &mut |long| {
            (side.job_write)(f, &table, &starts, &payload, long)
        }),
        with(TABLE, &mut |long| {
            (side.job_read)(f, long, &word, &mut payload)
        }),
        with(WORD, &mut |long| {
            (side.job_read)(f, &table, long, &mut payload)
        }),
        with(PAYLOAD, &mut |long| (side.job_read)(f, &table, &word, long)),
    ]
}

/// Likewise the moves, whose figures both codes take.
fn move_calls(side: &Side, with: &mut dyn FnMut(usize, Call) -> u8) -> Vec<u8> {
    let (strip, mut moved, table) = ([0; WORD], [0; WORD], [0; TABLE]);
    let mut answers = Vec::new();
    for way in WAYS {
        let call = way.call(side);
        answers.extend([
            with(TABLE, &mut |long| call(EXAMPLE, long, &strip, &mut moved)),
            with(WORD, &mut |long| call(EXAMPLE, &table, long, &mut moved)),
            with(WORD, &mut |long| call(EXAMPLE, &table, &strip, long)),
        ]);
    }
    answers
}

/// Likewise the prescription calls with a list of bytes.
fn prescription_calls(side: &Side, f: Numbers, with: &mut dyn FnMut(usize, Call) -> u8) -> [u8; 7] {
    let (mut word, starts, table) = ([0; WORD], [0; 2], [0; TABLE]);
    let (mut two, mut five) = ([0.0; 2], [0.0; 5]);
    [
        with(2, &mut |long| (side.transpose)(PLANO, long, &mut two)),
        with(TABLE, &mut |long| {
            (side.prescription_write)(f, long, &starts, 1, ORDER, &mut word)
        }),
        with(2, &mut |long| {
            (side.prescription_write)(f, &table, long, 1, ORDER, &mut word)
        }),
        with(WORD, &mut |long| {
            (side.prescription_write)(f, &table, &starts, 1, ORDER, long)
        }),
        with(TABLE, &mut |long| {
            (side.prescription_read)(f, long, &word, &mut [0; 8], &mut five)
        }),
        with(WORD, &mut |long| {
            (side.prescription_read)(f, &table, long, &mut [0; 8], &mut five)
        }),
        with(8, &mut |long| {
            (side.prescription_read)(f, &table, &word, long, &mut five)
        }),
    ]
}

/// Likewise those with a list of doubles.
fn power_calls(side: &Side, f: Numbers, long: &mut [f64], extra: usize) -> [u8; 3] {
    let (word, table) = ([0; WORD], [0; TABLE]);
    [
        (side.transpose)(PLANO, &mut [0; 2], &mut long[..2 + extra]),
        (side.spherical_equivalent)(PLANO, &mut long[..1 + extra]),
        (side.prescription_read)(f, &table, &word, &mut [0; 8], &mut long[..5 + extra]),
    ]
}

fn all_three(judge: &mut Judge, side: &Side, extra: usize, answers: &[u8]) {
    let right = answers.iter().all(|&answer| answer == 3);
    let inputs = || format!("{}: {extra} too many: {answers:?}", side.name);
    judge.expect(Op::Decode, right, &inputs, "3 is for another length");
}

pub fn run(judge: &mut Judge) {
    // Zeroed memory of this size takes no room until it is touched, which no call should do.
    let mut long = vec![0; (1 << 32) + 2 * TABLE];
    for extra in [1 << 8, 1 << 16, 1 << 32] {
        for side in [PROVED, SECOND] {
            let mut with = |len: usize, call: Call| call(&mut long[..len + extra]);
            let mut answers = move_calls(&side, &mut with);
            for f in CODES.map(|code| Numbers::of(code, EXAMPLE)) {
                answers.extend(word_calls(&side, f, &mut with));
                answers.extend(lane_calls(&side, f, &mut with));
                answers.extend(job_calls(&side, f, &mut with));
                answers.extend(prescription_calls(&side, f, &mut with));
            }
            all_three(judge, &side, extra, &answers);
        }
    }
    drop(long);
    // Of numbers and doubles, as many bytes too many.
    let mut long = vec![0; (1 << 29) + TABLE];
    for extra in [1 << 5, 1 << 8, 1 << 13, 1 << 16, 1 << 29] {
        for side in [PROVED, SECOND] {
            let of = |code| (side.figures)(Numbers::of(code, EXAMPLE), &mut long[..4 + extra]);
            all_three(judge, &side, extra, &CODES.map(of));
        }
    }
    drop(long);
    let mut long = vec![0.0; (1 << 29) + TABLE];
    for extra in [1 << 5, 1 << 8, 1 << 13, 1 << 16, 1 << 29] {
        for side in [PROVED, SECOND] {
            let calls = |code| power_calls(&side, Numbers::of(code, EXAMPLE), &mut long, extra);
            let answers = CODES.map(calls).concat();
            all_three(judge, &side, extra, &answers);
        }
    }
}
