//! Calls on a table of bytes: its states, the order of their refusals, and every call on every state. Document 02's change requests 7 and 10.

use second::raw::{cancel, finish, hold, open, reinstate, release};
use second::raw::{encode, job_read, job_write, SLOT, TABLE};

const LETTERS: &[u8] = b"OCFIHU";
/// The largest state.
const STATES: u8 = 5;

/// A table with one number in each of some slots; slot 1 is free.
fn table(slots: &[(usize, u8, u32)]) -> [u8; TABLE] {
    let mut table = [0; TABLE];
    for &(at, state, number) in slots {
        table[SLOT * at] = state;
        table[SLOT * at + 1..SLOT * (at + 1)].copy_from_slice(&number.to_be_bytes());
    }
    table
}

/// Makes the call of a letter.
fn call(table: &mut [u8], letter: u8, number: u32) -> u8 {
    let at = LETTERS.iter().position(|&known| known == letter);
    let calls = [open, cancel, finish, reinstate, hold, release];
    calls[at.expect("a call has this letter")](table, number)
}

/// Makes a call, which leaves the table alone where it is refused.
fn answer(table: &mut [u8], letter: u8, number: u32) -> u8 {
    let before = table.to_vec();
    let answer = call(table, letter, number);
    assert!(answer == 0 || *table == before);
    answer
}

#[test]
fn states() {
    for state in 0..=255 {
        for &letter in LETTERS {
            let refused = call(&mut table(&[(9, state, 70)]), letter, 7) == 1;
            assert_eq!(refused, state > STATES, "state {state}");
        }
    }
}

#[test]
fn one_number_twice() {
    for first in 0..=STATES {
        for second in 0..=STATES {
            let mut table = table(&[(3, first, 70), (63, second, 70)]);
            let refused = answer(&mut table, b'I', 7) == 1;
            assert_eq!(refused, first > 0 && second > 0);
        }
    }
}

#[test]
fn a_length_then_the_slots() {
    let bad = table(&[(0, STATES + 1, 7)]);
    for &letter in LETTERS {
        assert_eq!(answer(&mut bad[1..].to_vec(), letter, 7), 3);
        assert_eq!(answer(&mut [], letter, 7), 3);
        assert_eq!(answer(&mut bad.clone(), letter, 7), 1);
    }
}

/// A state, the answers of O C F I H U for number 7 and the states afterwards, and their answers for number 0.
type Row = (u8, [(u8, u8); 6], [u8; 6]);

const ROWS: [Row; 6] = [
    (
        0,
        [(0, 1), (0, 3), (14, 0), (20, 0), (14, 0), (24, 0)],
        [17, 17, 14, 20, 14, 24],
    ),
    (
        1,
        [(13, 1), (0, 2), (0, 0), (20, 1), (0, 4), (24, 1)],
        [17, 0, 0, 20, 0, 24],
    ),
    (
        2,
        [(12, 2), (12, 2), (12, 2), (0, 1), (12, 2), (12, 2)],
        [17, 12, 12, 0, 12, 12],
    ),
    (
        3,
        [(12, 3), (12, 3), (12, 3), (0, 0), (12, 3), (12, 3)],
        [17, 12, 12, 0, 12, 12],
    ),
    (
        4,
        [(13, 4), (0, 5), (23, 4), (20, 4), (23, 4), (0, 1)],
        [17, 0, 23, 20, 23, 0],
    ),
    (
        5,
        [(12, 5), (12, 5), (12, 5), (0, 4), (12, 5), (12, 5)],
        [17, 12, 12, 0, 12, 12],
    ),
];

#[test]
fn every_call_on_every_state() {
    for (state, seven, zero) in ROWS {
        for (i, &letter) in LETTERS.iter().enumerate() {
            let mut table = table(&[(0, state, 7)]);
            let (wanted, after) = seven[i];
            assert_eq!((answer(&mut table, letter, 7), table[0]), (wanted, after));
            if after == 0 && wanted == 0 {
                assert_eq!(table, [0; TABLE]);
            }
            let mut table = self::table(&[(0, state, 0)]);
            assert_eq!(answer(&mut table, letter, 0), zero[i]);
        }
    }
}

/// Cancelling and reinstating, holding and releasing give the same table, slots included.
#[test]
fn there_and_back() {
    let before = table(&[(0, 1, 5), (2, 2, 0), (3, 1, 7), (4, 4, 6), (62, 3, 9)]);
    let same = |there: u8, back: u8, numbers: &[u32]| {
        for &number in numbers {
            let mut table = before;
            assert_eq!(call(&mut table, there, number), 0);
            assert_ne!(table, before);
            assert_eq!(call(&mut table, back, number), 0);
            assert_eq!(table, before);
        }
    };
    same(b'C', b'I', &[5, 6, 7, 8, u32::MAX]);
    same(b'H', b'U', &[5, 7]);
}

/// What writing and reading a job answer under each state of its number.
#[test]
fn jobs_under_every_state() {
    let numbers = (15, 256, 1, 2);
    for (state, answer) in [(0, 14), (1, 0), (2, 12), (3, 12), (4, 23), (5, 12)] {
        for number in [7, 0] {
            let table = table(&[(31, state, number)]);
            let mut payload = [65; 11];
            payload[..4].copy_from_slice(&number.to_be_bytes());
            let (mut word, mut read) = ([0xEE; 15], [0xEE; 11]);
            let written = job_write(numbers, &table, &[0, 6], &payload, &mut word);
            assert_eq!(written, if number == 0 { 17 } else { answer });
            assert_eq!(encode(numbers, &[0, 6], &payload, &mut word), 0);
            assert_eq!(job_read(numbers, &table, &word, &mut read), answer);
            assert_eq!(read, if answer == 0 { payload } else { [0xEE; 11] });
        }
    }
}
