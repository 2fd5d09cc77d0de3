//! Document 02's change request 6: cells without a reading.

mod exhaustive;

use std::collections::BTreeSet;

use second::codec::{decode, encode};
use second::job::read_job;
use second::{Book, Figures};

fn figures(n: u32, q: u32, m: u32, b: u32) -> Figures {
    Figures::new(n, q, m, b).expect("these figures fit")
}

/// The answer for a word, whose message and starts are kept where it is refused.
fn answer(f: &Figures, word: &[u8]) -> u8 {
    let (mut message, mut starts) = (vec![0xEE; f.k], vec![0xEEEE; f.m]);
    let answer = decode(f, word, &mut message, &mut starts);
    let kept =
        message.iter().all(|&symbol| symbol == 0xEE) && starts.iter().all(|&start| start == 0xEEEE);
    assert!(answer == 0 || kept);
    answer
}

/// The word with these cells changed.
fn changed(word: &[u8], cells: &[usize], value: u8) -> Vec<u8> {
    let mut word = word.to_vec();
    cells.iter().for_each(|&cell| word[cell] = value);
    word
}

/// Document 01's first strip, with blocks of 10: block 0 is F, block 1 has the run at 12, block 2 is I.
fn first() -> (Figures, Vec<u8>) {
    let f = figures(30, 2, 1, 3);
    let mut word = vec![0; 30];
    assert_eq!(encode(&f, &[12], &[1; 20], &mut word), 0);
    (f, word)
}

#[test]
fn one_silent_cell() {
    let (f, word) = first();
    for cell in 0..30 {
        let wanted = match cell {
            // No block looks F any more.
            0 => 7,
            12..=14 => 0,
            // A message cell, block 1's first one too, or one of the I-block's first 6.
            _ => 19,
        };
        assert_eq!(
            answer(&f, &changed(&word, &[cell], 2)),
            wanted,
            "cell {cell}"
        );
        // A value above q goes first.
        assert_eq!(answer(&f, &changed(&word, &[cell], 3)), 4);
    }
    assert_eq!(answer(&f, &changed(&word, &[12, 13, 14], 2)), 0);
    assert_eq!(answer(&f, &[2; 30]), 7);
}

#[test]
fn the_order() {
    let (f, word) = first();
    // The I-block's symbols spell T or more: 8, but 19 where one of them is silent, whichever it is.
    let value = changed(&word, &[21, 24, 25], 1);
    assert_eq!(answer(&f, &value), 8);
    for cell in 20..26 {
        assert_eq!(answer(&f, &changed(&value, &[cell], 2)), 19);
    }
    // A silent message cell comes after 8 and after 9.
    assert_eq!(answer(&f, &changed(&value, &[29], 2)), 8);
    let other = changed(&word, &[21, 22, 23, 24, 25], 0);
    assert_eq!(answer(&f, &other), 9);
    assert_eq!(answer(&f, &changed(&other, &[29], 2)), 9);
    assert_eq!(answer(&f, &changed(&other, &[25], 2)), 19);
    // Block 0 looks F no more, and then 7 goes before 19.
    assert_eq!(answer(&f, &changed(&word, &[0, 25, 29], 2)), 7);
}

/// With two blocks to a part, an F-block's silent first symbol can leave the pattern as it was.
#[test]
fn a_silent_fixed_symbol() {
    let f = figures(60, 4, 2, 4);
    let mut word = vec![0; 60];
    assert_eq!(encode(&f, &[8, 12], &[3; 44], &mut word), 0);
    for cell in [40, 50] {
        assert_eq!(word[cell], 0);
        assert_eq!(answer(&f, &changed(&word, &[cell], 4)), 9);
        // 9 goes before the message's 19, and the I-blocks' before 9.
        assert_eq!(answer(&f, &changed(&word, &[cell, 59], 4)), 9);
        assert_eq!(answer(&f, &changed(&word, &[cell, 22], 4)), 19);
    }
    // Parts 1 and 2 have no block that looks F, which gives part 2; with block 1 no part has one.
    assert_eq!(answer(&f, &changed(&word, &[40, 50], 4)), 19);
    assert_eq!(answer(&f, &changed(&word, &[10, 40, 50], 4)), 7);
}

/// Every value of a byte is a symbol where q is 256, and 255 is the only silent one where q is 255.
#[test]
fn the_largest_alphabets() {
    for (q, wanted) in [(256, 0), (255, 19), (254, 4)] {
        let f = figures(15, q, 1, 2);
        let mut word = vec![0; 15];
        assert_eq!(encode(&f, &[6], &vec![7; f.k], &mut word), 0);
        assert_eq!(answer(&f, &changed(&word, &[14], 255)), wanted);
        let inside = if wanted == 4 { 4 } else { 0 };
        assert_eq!(answer(&f, &changed(&word, &[6, 7], 255)), inside);
    }
}

#[test]
fn every_word_of_small_figures() {
    let small = [
        (3, 4, 1, 1),
        (4, 5, 1, 1),
        (5, 6, 1, 1),
        (6, 3, 1, 1),
        (6, 4, 1, 1),
        (6, 5, 1, 1),
        (6, 5, 2, 1),
        (6, 6, 1, 2),
        (7, 4, 1, 1),
    ];
    let answers = small.map(|(n, q, m, b)| exhaustive::every_word(&figures(n, q, m, b)));
    let answers: BTreeSet<u8> = answers.into_iter().flatten().collect();
    assert_eq!(answers, [0, 4, 7, 8, 9, 19].into());
}

#[test]
fn jobs() {
    let f = figures(30, 255, 1, 2);
    let mut book = Book::default();
    assert_eq!(book.open(7), 0);
    let mut message = vec![0; f.k];
    // A byte takes two symbols.
    (message[7], message[9]) = (7, 65);
    let mut word = vec![0; 30];
    assert_eq!(encode(&f, &[6], &message, &mut word), 0);
    let read = |word: &[u8]| {
        let mut payload = vec![0xEE; f.k / 2];
        let answer = read_job(&f, &book, word, &mut payload);
        assert_eq!(answer != 0, payload[0] == 0xEE);
        answer
    };
    assert_eq!(read(&word), 0);
    assert_eq!(read(&changed(&word, &[6, 7], 255)), 0);
    // Two symbols that spell 256 or more are 10; a silent cell elsewhere goes before.
    let odd = changed(&word, &[28], 254);
    assert_eq!(read(&odd), 10);
    assert_eq!(read(&changed(&odd, &[29], 255)), 19);
}
