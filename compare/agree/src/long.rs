//! Construction B at the boundaries of its figures: document 02's own, every word of the shortest strips, and the longest.

use second::Figures;

use crate::calls::TABLE;
use crate::judge::{Judge, Op};
use crate::make::{numbers, start_bytes, symbols};
use crate::rng::Rng;
use crate::sides::Numbers;
use crate::words;

pub fn run(judge: &mut Judge, rng: &mut Rng) {
    limits(judge);
    papers_strip(judge);
    before_the_word(judge);
    for (q, longest) in [(2, 9), (3, 7)] {
        for n in 3..=longest {
            (1..=n / 3)
                .filter_map(|b| Figures::construction_b(n, q, b).ok())
                .for_each(|f| words::every_word(judge, &f));
        }
    }
    for (n, q, b) in boundaries() {
        if let Ok(f) = Figures::construction_b(n, q, b) {
            words::patterns_of(judge, rng, &f, 1);
            every_start(judge, rng, &f);
            words::round(judge, rng, f);
            words::end_ranks(judge, rng, f);
        }
    }
}

/// What the lengths alone tell of figures: 3 where they fit.
fn limits(judge: &mut Judge) {
    for (n, q, b, number) in [
        (3, 2, 1, 3),
        (4, 2, 1, 2),
        (5, 2, 1, 2),
        (5, 3, 1, 3),
        (6, 2, 2, 3),
        (7, 2, 2, 2),
        (9, 2, 3, 3),
        (9, 2, 4, 2),
        (20, 2, 5, 3),
        (20, 2, 6, 3),
        // Document 003 would take it.
        (20, 2, 7, 2),
        (4096, 2, 1365, 3),
        (4096, 256, 1365, 3),
        (4096, 256, 1366, 2),
        (4097, 256, 1366, 1),
        (4096, 257, 1366, 1),
        (4096, 1, 1366, 1),
        (4096, 256, 0, 1),
        (2, 2, 1, 1),
    ] {
        let answer = judge.decode(Numbers::Long((n, q, b)), &[], 0, 1).number;
        let inputs = || format!("n {n}, q {q}, b {b} is {number}");
        let what = "not what the documents say";
        judge.expect(Op::Figures, answer == number, &inputs, what);
    }
}

/// "For n 20, q 2, b 5, r is 3 and k is 10": start 9, message all 1. The parts begin at 0, 6 and 13; the run ends at 13, so the
/// first part spells 0 and the second has the fixed symbol.
fn papers_strip(judge: &mut Judge) {
    let f = Numbers::Long((20, 2, 5));
    let written = judge.encode(f, &[0, 9], &[1; 10], 20);
    let wanted = b"10001101100000111111".map(|digit| digit - b'0');
    let right = written.number == 0 && written.out == wanted;
    let what = "not what the documents say";
    judge.expect(Op::Encode, right, &|| format!("{f:?}"), what);
    for (word, number) in [
        (b"10001101101010111111", 0),
        (b"10001101122222111111", 0),
        (b"10001101123222111111", 4),
        (b"11111111111111111111", 7),
        (b"00000000000000000000", 7),
        // Silent cells: in the I-block, where the value is too large, and in the message.
        (b"10021101100000111111", 19),
        (b"11121101100000111111", 19),
        (b"10001101200000111111", 19),
        // Not below the B part's length, 7; 6 is the last.
        (b"11111101100000111111", 8),
        (b"11101101100000000000", 0),
        // Likewise of the first part, 6. There 4 starts the run at 0, and 3 before that.
        (b"11111111101110111111", 8),
        (b"11111111011110111111", 0),
        (b"11111111001110111111", 0),
        (b"11111110111110111111", 9),
    ] {
        let found = word.map(|digit| digit - b'0');
        let answer = judge.decode(f, &found, 10, 2).number;
        let inputs = || format!("{f:?} {} is {number}", String::from_utf8_lossy(word));
        judge.expect(Op::Decode, answer == number, &inputs, what);
    }
}

/// A run that would start before position 0 has 9 for every reader, whatever the table.
fn before_the_word(judge: &mut Judge) {
    let f = Numbers::Long((60, 256, 20));
    let mut word = [7; 60];
    (word[20], word[40]) = (1, 0);
    let table = [0; TABLE];
    let answers = judge.readers(f, &table, &word, 38);
    let inputs = || format!("{f:?} {answers:?}");
    judge.expect(
        Op::Decode,
        answers == [9; 3],
        &inputs,
        "9 is for such a run",
    );
}

/// Figures at a boundary: b of 1, 2, L - 1 and L; r of L - 1 and less; the shortest, and n around 4096.
fn boundaries() -> Vec<(u32, u32, u32)> {
    let mut all = Vec::new();
    for n in (3..=12).chain([20, 21, 22, 383, 384, 765, 766, 4094, 4095, 4096]) {
        for q in [2, 3, 4, 255, 256] {
            let mut bursts = vec![1, 2, n / 3 - 1, n / 3];
            bursts.sort_unstable();
            bursts.dedup();
            all.extend(bursts.into_iter().map(|b| (n, q, b)));
        }
    }
    all
}

/// Starts through all of a short strip, and every 97th of a long one, with a message that is read back.
fn every_start(judge: &mut Judge, rng: &mut Rng, f: &Figures) {
    let step = if f.n > 100 { 97 } else { 1 };
    for start in (0..=f.n - f.b).step_by(step) {
        let starts = start_bytes(&[start as u16]);
        let message = symbols(rng, f.q, f.k);
        let word = judge.encode(numbers(f), &starts, &message, f.n);
        let read = judge.decode(numbers(f), &word.out, f.k, 2);
        let right =
            word.number == 0 && (read.number, &read.out, &read.also) == (0, &message, &starts);
        let inputs = || format!("{f:?} start {start}");
        judge.expect(Op::Decode, right, &inputs, "not what was written");
    }
}
