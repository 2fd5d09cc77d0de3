//! Document 02's change request 13: strips from the frame maker, under each code's figures.

use second::choose::unrank;
use second::codec::{decode, encode, verify};
use second::raw::{self, Larsson, Numbers};
use second::Figures;

/// The list of digits of each number below base^len.
fn lists(base: u32, len: usize) -> Vec<Vec<u8>> {
    let digit = |value: u32, i: usize| (value / base.pow(i as u32) % base) as u8;
    let list = |value: u32| (0..len).map(|i| digit(value, i)).collect();
    (0..base.pow(len as u32)).map(list).collect()
}

#[test]
fn every_word_and_list_of_small_figures() {
    for (n, q, m, b) in [
        (3, 4, 1, 1),
        (4, 5, 1, 1),
        (5, 6, 1, 1),
        (6, 3, 1, 1),
        (6, 5, 2, 1),
        (6, 6, 1, 2),
    ] {
        every_word_and_list(Figures::new(n, q, m, b));
    }
    for (n, q, b) in [(3, 2, 1), (6, 2, 2), (5, 3, 1), (7, 3, 2), (9, 2, 3)] {
        every_word_and_list(Figures::construction_b(n, q, b));
    }
    for (n, q, m, b) in [
        (3, 2, 3, 1),
        (6, 2, 3, 2),
        (4, 5, 1, 1),
        (6, 3, 1, 1),
        (5, 4, 1, 2),
        (5, 10, 2, 1),
    ] {
        every_word_and_list(Figures::larsson(n, q, m, b));
    }
}

/// Every word of values up to q, against every list: yes exactly when the reader gives back this placement and message.
fn every_word_and_list(f: Result<Figures, u8>) {
    let f = f.expect("these figures fit");
    let messages = lists(f.q, f.k);
    let mut agreeing = 0;
    for word in lists(f.q + 1, f.n) {
        let (mut message, mut starts) = (vec![0; f.k], vec![0; f.m]);
        let read = decode(&f, &word, &mut message, &mut starts) == 0;
        for rank in 0..f.t {
            let listed = &unrank(&f, rank)[..f.m];
            // Of the lists that the reader doesn't give back, some are enough.
            for i in (0..messages.len())
                .filter(|i| (i + word[0] as usize).is_multiple_of(5) || messages[*i] == message)
            {
                let same = read && messages[i] == message && *listed == starts;
                assert_eq!(verify(&f, listed, &messages[i], &word), Ok(same));
                agreeing += same as u64;
            }
        }
    }
    // Each list has the words with any values in its runs.
    let damages = (f.q as u64 + 1).pow((f.m * f.b) as u32);
    assert_eq!(agreeing, f.t * messages.len() as u64 * damages);
}

#[test]
fn each_cell_of_a_word() {
    each_cell(Figures::new(60, 4, 2, 4), &[8, 12]);
    each_cell(Figures::construction_b(60, 4, 20), &[17]);
    each_cell(Figures::larsson(60, 4, 2, 4), &[8, 12]);
}

fn each_cell(f: Result<Figures, u8>, starts: &[u16]) {
    let f = f.expect("these figures fit");
    let (message, mut word) = (vec![3; f.k], vec![0; f.n]);
    assert_eq!(encode(&f, starts, &message, &mut word), 0);
    let inside = |cell: usize| {
        let mut runs = starts.iter().map(|&start| start as usize);
        runs.any(|start| (start..start + f.b).contains(&cell))
    };
    for (cell, value) in (0..f.n).flat_map(|cell| (0..=5).map(move |value| (cell, value))) {
        let mut found = word.clone();
        found[cell] = value;
        let wanted = match value {
            5 => Err(4),
            _ => Ok(value == word[cell] || inside(cell)),
        };
        assert_eq!(verify(&f, starts, &message, &found), wanted, "cell {cell}");
    }
}

/// Each with a message of 11 symbols: n 15, q 16 and one run of 2 positions.
#[test]
fn refusals() {
    refused((15, 16, 1, 2));
    refused((15, 16, 2));
    refused(Larsson(15, 16, 1, 2));
    // The figures go before all.
    assert_eq!(raw::verify((2, 16, 1, 2), &[], &[], &[]), 1);
    assert_eq!(raw::verify((15, 16, 1, 9), &[], &[], &[]), 2);
    assert_eq!(raw::verify((15, 16, 0), &[], &[], &[]), 1);
    assert_eq!(raw::verify((15, 16, 6), &[], &[], &[]), 2);
    assert_eq!(raw::verify(Larsson(15, 16, 9, 2), &[], &[], &[]), 1);
    assert_eq!(raw::verify(Larsson(15, 16, 1, 8), &[], &[], &[]), 2);
    // Where every byte is a symbol, none is too large.
    assert_eq!(
        raw::verify((15, 256, 1, 2), &[0, 6], &[255; 11], &[255; 15]),
        raw::DIFFERS
    );
}

fn refused(numbers: impl Numbers + Copy) {
    let mut word = [0; 15];
    assert_eq!(raw::encode(numbers, &[0, 6], &[7; 11], &mut word), 0);
    let answer =
        |starts: &[u8], message: &[u8], word: &[u8]| raw::verify(numbers, starts, message, word);
    assert_eq!(answer(&[0, 6], &[7; 11], &word), 0);
    assert_eq!(answer(&[0, 5], &[7; 11], &word), raw::DIFFERS);
    // 3 for each length, then 5, then 4.
    for (starts, message, len) in [
        (1, 11, 15),
        (0, 11, 15),
        (4, 11, 15),
        (2, 10, 15),
        (2, 12, 15),
        (2, 11, 14),
        (2, 11, 16),
    ] {
        assert_eq!(
            answer(&vec![255; starts], &vec![99; message], &vec![99; len]),
            3
        );
    }
    assert_eq!(answer(&[0, 14], &[16; 11], &[17; 15]), 5);
    assert_eq!(answer(&[0, 6], &[16; 11], &word), 4);
    assert_eq!(answer(&[0, 6], &[7; 11], &[17; 15]), 4);
    assert_eq!(answer(&[0, 6], &[7; 11], &[16; 15]), raw::DIFFERS);
}
