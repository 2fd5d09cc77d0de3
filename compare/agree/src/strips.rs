//! Document 01's bench strips that aren't starred, with the answers that the paper gives, figures at the limits of
//! document 02's change request 11, and calls on number 0, its change requests 3, 7 and 10.

use crate::judge::{Judge, Op};
use crate::sides::Numbers;

const FIRST: Numbers = Numbers::Ranked((30, 2, 1, 3));

fn is(judge: &mut Judge, op: Op, strip: &str, holds: bool) {
    judge.expect(
        op,
        holds,
        &|| strip.to_string(),
        "not what the documents say",
    );
}

pub fn run(judge: &mut Judge) {
    seventeen(judge);
    covering(judge);
    reading(judge);
    book(judge);
    limits(judge);
    zero(judge);
}

fn seventeen(judge: &mut Judge) {
    let fits = judge
        .decode(Numbers::Ranked((60, 17, 2, 9)), &[], 0, 0)
        .number;
    is(judge, Op::Figures, "n 60, q 17, m 2, b 9 fits", fits == 3);
    let unfit = judge
        .decode(Numbers::Ranked((60, 17, 2, 10)), &[], 0, 0)
        .number;
    is(judge, Op::Figures, "n 60, q 17, m 2, b 10 is 2", unfit == 2);
}

fn covering(judge: &mut Judge) {
    let mut worn = [0; 30];
    worn[12] = 1;
    for (what, map, start) in [
        ("no worn cell gives 0", [0; 30], 0),
        ("worn 12 gives 10", worn, 10),
    ] {
        let found = judge.cover(FIRST, &map, 2);
        is(
            judge,
            Op::Cover,
            what,
            found.number == 0 && found.out == [0, start],
        );
    }
}

fn reading(judge: &mut Judge) {
    let mut refused = |word: &[u8], number: u8| {
        let answer = judge.decode(FIRST, word, 20, 2);
        is(
            judge,
            Op::Decode,
            "first strip, read",
            answer.number == number,
        );
    };
    refused(&[0; 30], 7);
    refused(&[1; 30], 7);
    let mut word = [1; 30];
    word[0] = 0;
    word[12..15].fill(0);
    refused(&word, 8);
    word[21..26].fill(0);
    refused(&word, 9);
    word[22..24].fill(1);
    refused(&word, 0);
    // Document 02's change request 6: silent cells in the run, in the I-block, in the message, and as the only fixed symbol.
    word[12..15].fill(2);
    refused(&word, 0);
    for (cell, number) in [(20, 19), (25, 19), (10, 19), (29, 19), (0, 7)] {
        let mut silent = word;
        silent[cell] = 2;
        refused(&silent, number);
        silent[13] = 3;
        refused(&silent, 4);
    }
}

fn book(judge: &mut Judge) {
    let mut table = vec![0; 320];
    for number in 1..=64 {
        let answer = judge.call(&table, b'O', number);
        is(judge, Op::Open, "numbers 1 to 64 open", answer.number == 0);
        table = answer.out;
    }
    let full = judge.call(&table, b'O', 65);
    is(judge, Op::Open, "65 is 15", full.number == 15);
    table = judge.call(&full.out, b'F', 1).out;
    let opened = judge.call(&table, b'O', 65);
    is(
        judge,
        Op::Open,
        "65 opens after 1 is finished",
        opened.number == 0,
    );
    is(
        judge,
        Op::Open,
        "65 takes the first place",
        opened.out[..5] == [1, 0, 0, 0, 65],
    );
}

/// What the lengths alone tell of figures with q 256: 3 where they fit.
fn limits(judge: &mut Judge) {
    for (n, m, b, number) in [
        (1025, 1, 1, 3),
        (4096, 6, 1, 3),
        (4096, 6, 112, 3),
        (4096, 6, 113, 2),
        (4096, 7, 83, 2),
        (4096, 8, 64, 2),
        (1999, 7, 39, 3),
        (1999, 7, 38, 2),
        (2000, 7, 39, 2),
        (999, 8, 15, 3),
        (999, 8, 14, 2),
        (1000, 8, 15, 2),
        (888, 8, 1, 2),
        (888, 8, 2, 3),
        (64, 8, 1, 3),
        (63, 8, 1, 2),
        (4097, 8, 4096, 1),
        (4096, 9, 4096, 1),
    ] {
        let answer = judge
            .decode(Numbers::Ranked((n, 256, m, b)), &[], 0, 1)
            .number;
        let strip = format!("n {n}, q 256, m {m}, b {b} is {number}");
        is(judge, Op::Figures, &strip, answer == number);
    }
}

/// Each call on number 0: under the empty table and a full one without it, and with 0 alone in any slot.
fn zero(judge: &mut Judge) {
    let mut full = vec![0; 320];
    for (i, slot) in full.chunks_exact_mut(5).enumerate() {
        slot.copy_from_slice(&[1, 0, 0, 0, i as u8 + 1]);
    }
    let mut answers = |table: &[u8], wanted: [u8; 6]| {
        for (letter, number) in b"OCFIHU".iter().zip(wanted) {
            let answer = judge.call(table, *letter, 0).number;
            let what = format!("letter {letter} on number 0 is {number}");
            is(judge, Op::Open, &what, answer == number);
        }
    };
    answers(&[0; 320], [17, 17, 14, 20, 14, 24]);
    answers(&full, [17, 17, 14, 20, 14, 24]);
    for slot in 0..64 {
        let mut alone = [0; 320];
        alone[5 * slot] = 1;
        answers(&alone, [17, 0, 0, 20, 0, 24]);
        for cancelled in [2, 3, 5] {
            alone[5 * slot] = cancelled;
            answers(&alone, [17, 12, 12, 0, 12, 12]);
        }
        alone[5 * slot] = 4;
        answers(&alone, [17, 0, 23, 20, 23, 0]);
    }
}
