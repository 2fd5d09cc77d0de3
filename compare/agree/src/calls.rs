//! Calls on tables: long lists of calls on one table, and tables made at will. Number 0 is in some, in any slot.

use crate::judge::{hex, Judge, Op};
use crate::rng::Rng;

pub const TABLE: usize = 320;
const SLOT: usize = 5;
/// The largest state of a slot.
const STATES: u64 = 5;
/// The letters of the calls.
const LETTERS: &[u8] = b"OCFIHU";

/// A number from a pool that makes repeated numbers likely.
pub fn number(rng: &mut Rng, pool: u64) -> u32 {
    match rng.below(8) {
        0 => rng.pick(&[0, 1, u32::MAX, 1 << 31, 0x0100, 0x0001_0000]),
        _ => rng.below(pool) as u32,
    }
}

/// A table that is a book: places free or taken at will, many of these open, with bytes left behind in free places.
pub fn table(rng: &mut Rng) -> Vec<u8> {
    let mut table = vec![0; TABLE];
    let taken = rng.pick(&[0, 1, 5, 32, 60, 63, 64, 64]);
    let step = rng.pick(&[1, 1, 256, 65536, 0x0101_0101]);
    let shift = rng.index(64);
    for (i, slot) in table.chunks_exact_mut(SLOT).enumerate() {
        if rng.below(64) < taken {
            slot[0] = rng.pick(&[1, 1, 1, 2, 3, 4, 4, 5]);
            slot[1..].copy_from_slice(&((i + shift) as u32 % 64 * step).to_be_bytes());
        } else if rng.once_in(4) {
            slot[1..].copy_from_slice(&number(rng, 64).to_be_bytes());
        }
    }
    table
}

/// A table with something wrong with it: a number twice, an unknown state, or another length.
pub fn bad_table(rng: &mut Rng) -> Vec<u8> {
    let mut table = table(rng);
    let (i, j) = (rng.index(64) * SLOT, rng.index(64) * SLOT);
    match rng.below(5) {
        0 => table[i] = rng.between(STATES + 1, 255) as u8,
        1 => table.resize(TABLE - rng.pick(&[1, 5, 320]), 0),
        2 => table.resize(TABLE + rng.pick(&[1, 5]), 0),
        _ => {
            let number = number(rng, 99).to_be_bytes();
            table[i + 1..i + SLOT].copy_from_slice(&number);
            table[j + 1..j + SLOT].copy_from_slice(&number);
            // A free place's bytes are no number, and i may be j.
            table[i] = rng.between(0, STATES) as u8;
            table[j] = rng.between(0, STATES) as u8;
        }
    }
    table
}

fn letter(rng: &mut Rng) -> u8 {
    rng.pick(b"OOOOOOCCFFIIHHHUU")
}

/// The tables that demand 3's list starts from: the empty one, or 0 alone in any slot, open or cancelled; here held too.
pub fn start(rng: &mut Rng) -> Vec<u8> {
    let mut table = vec![0; TABLE];
    table[rng.index(64) * SLOT] = rng.between(0, STATES) as u8;
    table
}

/// A list of calls of every kind on one table, from each kind of start, and from a table made at will.
pub fn list(judge: &mut Judge, rng: &mut Rng) {
    let mut table = if rng.once_in(4) {
        table(rng)
    } else {
        start(rng)
    };
    let pool = rng.pick(&[3, 40, 80, 1000]);
    for _ in 0..rng.pick(&[10, 100, 300]) {
        let number = number(rng, pool);
        let letter = letter(rng);
        let after = judge.call(&table, letter, number);
        match letter {
            b'C' if after.number == 0 => back(judge, b'I', &table, &after.out, number),
            b'H' if after.number == 0 => back(judge, b'U', &table, &after.out, number),
            _ => {}
        }
        table = after.out;
    }
}

/// Reinstating what was just cancelled, or releasing what was just held, gives the table before, but for the bytes left behind in free slots.
fn back(judge: &mut Judge, letter: u8, before: &[u8], table: &[u8], number: u32) {
    let after = judge.call(table, letter, number);
    let right = after.number == 0 && after.out == tidy(before);
    let inputs = || format!("table {} letter {letter} number {number}", hex(before));
    let op = Op::of_letter(letter);
    judge.expect(op, right, &inputs, "not the table before");
}

/// A table with 0 in the number bytes of every free slot.
fn tidy(table: &[u8]) -> Vec<u8> {
    let mut table = table.to_vec();
    for slot in table.chunks_exact_mut(SLOT).filter(|slot| slot[0] == 0) {
        slot.fill(0);
    }
    table
}

/// Each call on a table made at will, and on one with something wrong with it.
pub fn single(judge: &mut Judge, rng: &mut Rng) {
    let (good, bad) = (table(rng), bad_table(rng));
    let number = number(rng, 70);
    for &letter in LETTERS {
        judge.call(&good, letter, number);
        judge.call(&bad, letter, number);
    }
}
