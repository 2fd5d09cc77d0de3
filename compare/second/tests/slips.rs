//! Document 02's change request 14: what a slip can spoil.

use second::choose::unrank;
use second::codec::{decode, encode};
use second::Figures;

fn figures(n: u32, q: u32, m: u32, b: u32) -> Figures {
    Figures::new(n, q, m, b).expect("these figures fit")
}

fn written(f: &Figures, starts: &[u16], message: &[u8]) -> Vec<u8> {
    let mut word = vec![0; f.n];
    assert_eq!(encode(f, starts, message, &mut word), 0);
    word
}

/// The message's cells: those where the words of two messages differ that have no symbol in common.
fn cells(f: &Figures, starts: &[u16]) -> Vec<usize> {
    let (zeros, ones) = (
        written(f, starts, &vec![0; f.k]),
        written(f, starts, &vec![1; f.k]),
    );
    let cells: Vec<usize> = (0..f.n).filter(|&cell| zeros[cell] != ones[cell]).collect();
    assert_eq!(cells.len(), f.k);
    cells
}

/// Alters the message's cells to the symbols of another message, and reads: the placement is the same, and the message that other one.
fn altered(f: &Figures, starts: &[u16], cells: &[usize], word: &[u8], other: &[u8]) {
    let mut word = word.to_vec();
    cells
        .iter()
        .zip(other)
        .for_each(|(&cell, &symbol)| word[cell] = symbol);
    let (mut message, mut found) = (vec![0xEE; f.k], vec![0; f.m]);
    assert_eq!(
        decode(f, &word, &mut message, &mut found),
        0,
        "{f:?} {starts:?}"
    );
    assert_eq!((&found[..], &message[..]), (starts, other));
}

/// The list of digits of each number below base^len.
fn lists(base: u32, len: usize) -> Vec<Vec<u8>> {
    let digit = |value: u32, i: usize| (value / base.pow(i as u32) % base) as u8;
    let list = |value: u32| (0..len).map(|i| digit(value, i)).collect();
    (0..base.pow(len as u32)).map(list).collect()
}

/// Every placement, every message and every other one, with every value up to q in the runs.
#[test]
fn every_slip_of_small_figures() {
    for (n, q, m, b) in [
        (4, 5, 1, 1),
        (5, 6, 1, 1),
        (6, 3, 1, 1),
        (6, 5, 1, 1),
        (6, 6, 1, 2),
        (7, 4, 1, 1),
    ] {
        let f = figures(n, q, m, b);
        let messages = lists(q, f.k);
        for starts in (0..f.t).map(|rank| unrank(&f, rank)) {
            let starts = &starts[..f.m];
            let cells = cells(&f, starts);
            for message in &messages {
                let mut word = written(&f, starts, message);
                for damage in 0..=q as u8 {
                    let run = starts[0] as usize;
                    word[run..run + f.b].fill(damage);
                    messages
                        .iter()
                        .for_each(|other| altered(&f, starts, &cells, &word, other));
                }
            }
        }
    }
}

/// One slip, at every cell of the message, to every other symbol.
#[test]
fn one_slip() {
    for (n, q, m, b) in [
        (30, 2, 1, 3),
        (60, 4, 2, 4),
        (90, 3, 3, 3),
        (200, 3, 4, 2),
        (64, 256, 8, 1),
    ] {
        let f = figures(n, q, m, b);
        for rank in (0..f.t).step_by((f.t / 40) as usize + 1) {
            let starts = &unrank(&f, rank)[..f.m];
            let message: Vec<u8> = (0..f.k).map(|i| (i * 5 % q as usize) as u8).collect();
            let mut word = written(&f, starts, &message);
            for &start in starts {
                word[start as usize..start as usize + f.b].fill(q.min(255) as u8);
            }
            let cells = cells(&f, starts);
            for (i, symbol) in
                (0..f.k).flat_map(|i| (0..q.min(5) as u8).map(move |symbol| (i, symbol)))
            {
                let mut other = message.clone();
                other[i] = symbol;
                altered(&f, starts, &cells, &word, &other);
            }
        }
    }
}
