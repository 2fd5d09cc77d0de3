//! The same calls on plain numbers and bytes, as a C program makes them: starts are 2 bytes each, high byte first, and a
//! book is a table of 64 slots of 5 bytes, the state and the number, high byte first. States: 0 free, 1 open, 2 cancelled and
//! was open, 3 cancelled and was absent, 4 held, 5 cancelled and was held.

use crate::book::{Book, Former, Place, PLACES};
use crate::figures::{Figures, MAX_RUNS};
use crate::moving::Layouts;
use crate::{codec, cover as planner, job, lanes};

mod prescription;

pub use prescription::{
    prescription_read, prescription_write, spherical_equivalent, transpose, EyeNumbers,
    PrescriptionNumbers,
};

pub const SLOT: usize = 5;
pub const TABLE: usize = PLACES * SLOT;
/// What `verify` answers for a word that doesn't agree.
pub const DIFFERS: u8 = 255;

/// The figures of a strip as numbers, yet to be judged.
pub trait Numbers: TryInto<Figures, Error = u8> {}

impl<N: TryInto<Figures, Error = u8>> Numbers for N {}

/// n, q, m and b of Construction A.
pub type Ranked = (u32, u32, u32, u32);

impl TryFrom<Ranked> for Figures {
    type Error = u8;

    fn try_from((n, q, m, b): Ranked) -> Result<Figures, u8> {
        Figures::new(n, q, m, b)
    }
}

/// n, q and b of Construction B.
impl TryFrom<(u32, u32, u32)> for Figures {
    type Error = u8;

    fn try_from((n, q, b): (u32, u32, u32)) -> Result<Figures, u8> {
        Figures::construction_b(n, q, b)
    }
}

/// n, q, m and b of the Larsson code.
#[derive(Clone, Copy, Debug, PartialEq, Eq)]
pub struct Larsson(pub u32, pub u32, pub u32, pub u32);

impl TryFrom<Larsson> for Figures {
    type Error = u8;

    fn try_from(Larsson(n, q, m, b): Larsson) -> Result<Figures, u8> {
        Figures::larsson(n, q, m, b)
    }
}

/// The starts held in 2 * m bytes.
fn starts_of(bytes: &[u8]) -> [u16; MAX_RUNS] {
    let mut starts = [0; MAX_RUNS];
    for (start, pair) in starts.iter_mut().zip(bytes.chunks_exact(2)) {
        *start = u16::from_be_bytes([pair[0], pair[1]]);
    }
    starts
}

fn put_starts(starts: &[u16], bytes: &mut [u8]) {
    for (pair, start) in bytes.chunks_exact_mut(2).zip(starts) {
        pair.copy_from_slice(&start.to_be_bytes());
    }
}

/// The book of a table: none where its length is wrong, refusal 1 where a state is unknown or a number stands twice.
fn book_of(table: &[u8]) -> Option<Result<Book, u8>> {
    if table.len() != TABLE {
        return None;
    }
    let mut places = [Place::Free; PLACES];
    for (place, slot) in places.iter_mut().zip(table.chunks_exact(SLOT)) {
        let number = u32::from_be_bytes([slot[1], slot[2], slot[3], slot[4]]);
        *place = match slot[0] {
            0 => Place::Free,
            1 => Place::Open(number),
            2 => Place::Cancelled(number, Former::Open),
            3 => Place::Cancelled(number, Former::Absent),
            4 => Place::Held(number),
            5 => Place::Cancelled(number, Former::Held),
            _ => return Some(Err(1)),
        };
    }
    Some(Book::from_places(places))
}

fn put_book(book: &Book, table: &mut [u8]) {
    for (slot, place) in table.chunks_exact_mut(SLOT).zip(book.places()) {
        let (state, number) = match *place {
            Place::Free => (0, 0),
            Place::Open(number) => (1, number),
            Place::Cancelled(number, Former::Open) => (2, number),
            Place::Cancelled(number, Former::Absent) => (3, number),
            Place::Held(number) => (4, number),
            Place::Cancelled(number, Former::Held) => (5, number),
        };
        slot[0] = state;
        slot[1..].copy_from_slice(&number.to_be_bytes());
    }
}

/// T, r (the Larsson code's R), k and K. Refusals 1 2, and 3 for another room than for four.
pub fn figures(numbers: impl Numbers, room: &mut [u64]) -> u8 {
    let f = match numbers.try_into() {
        Ok(f) => f,
        Err(refusal) => return refusal,
    };
    let Ok(room) = <&mut [u64; 4]>::try_from(room) else {
        return 3;
    };
    *room = [f.t, f.r as u64, f.k as u64, job::payload_len(&f) as u64];
    0
}

pub fn encode(numbers: impl Numbers, starts: &[u8], message: &[u8], word: &mut [u8]) -> u8 {
    let f = match numbers.try_into() {
        Ok(f) => f,
        Err(refusal) => return refusal,
    };
    if starts.len() != 2 * f.m {
        return 3;
    }
    codec::encode(&f, &starts_of(starts)[..f.m], message, word)
}

pub fn decode(numbers: impl Numbers, word: &[u8], message: &mut [u8], starts: &mut [u8]) -> u8 {
    let f = match numbers.try_into() {
        Ok(f) => f,
        Err(refusal) => return refusal,
    };
    if starts.len() != 2 * f.m {
        return 3;
    }
    let mut found = [0; MAX_RUNS];
    let answer = codec::decode(&f, word, message, &mut found[..f.m]);
    if answer == 0 {
        put_starts(&found[..f.m], starts);
    }
    answer
}

pub fn verify(numbers: impl Numbers, starts: &[u8], message: &[u8], word: &[u8]) -> u8 {
    let f = match numbers.try_into() {
        Ok(f) => f,
        Err(refusal) => return refusal,
    };
    if starts.len() != 2 * f.m {
        return 3;
    }
    match codec::verify(&f, &starts_of(starts)[..f.m], message, word) {
        Ok(true) => 0,
        Ok(false) => DIFFERS,
        Err(refusal) => refusal,
    }
}

pub fn cover(numbers: impl Numbers, map: &[u8], starts: &mut [u8]) -> u8 {
    let f = match numbers.try_into() {
        Ok(f) => f,
        Err(refusal) => return refusal,
    };
    if starts.len() != 2 * f.m {
        return 3;
    }
    match planner::cover(&f, map) {
        Ok(found) => {
            put_starts(&found[..f.m], starts);
            0
        }
        Err(refusal) => refusal,
    }
}

pub fn interleave(numbers: impl Numbers, depth: u32, words: &[u8], strip: &mut [u8]) -> u8 {
    match numbers.try_into() {
        Ok(f) => lanes::interleave(&f, depth, words, strip),
        Err(refusal) => refusal,
    }
}

pub fn deinterleave(numbers: impl Numbers, depth: u32, strip: &[u8], words: &mut [u8]) -> u8 {
    match numbers.try_into() {
        Ok(f) => lanes::deinterleave(&f, depth, strip, words),
        Err(refusal) => refusal,
    }
}

/// A call on a number of a table. Refusals 3, 1, then the call's own.
fn call(table: &mut [u8], number: u32, act: fn(&mut Book, u32) -> u8) -> u8 {
    let mut book = match book_of(table) {
        Some(Ok(book)) => book,
        Some(Err(refusal)) => return refusal,
        None => return 3,
    };
    let answer = act(&mut book, number);
    if answer == 0 {
        put_book(&book, table);
    }
    answer
}

pub fn open(table: &mut [u8], number: u32) -> u8 {
    call(table, number, Book::open)
}

pub fn cancel(table: &mut [u8], number: u32) -> u8 {
    call(table, number, Book::cancel)
}

pub fn finish(table: &mut [u8], number: u32) -> u8 {
    call(table, number, Book::finish)
}

pub fn reinstate(table: &mut [u8], number: u32) -> u8 {
    call(table, number, Book::reinstate)
}

pub fn hold(table: &mut [u8], number: u32) -> u8 {
    call(table, number, Book::hold)
}

pub fn release(table: &mut [u8], number: u32) -> u8 {
    call(table, number, Book::release)
}

/// What each job call begins with: refusal 1 for the table, 1 and 2 for the figures, 10 where they have no room for a job, and 3 for the table's length.
fn job_call<F>(
    judged: Result<F, u8>,
    has_room: fn(&F) -> bool,
    table: &[u8],
    go: impl FnOnce(&F, &Book) -> u8,
) -> u8 {
    match (book_of(table).transpose(), judged) {
        (Err(refusal), _) | (_, Err(refusal)) => refusal,
        (_, Ok(f)) if !has_room(&f) => 10,
        (Ok(Some(book)), Ok(f)) => go(&f, &book),
        (Ok(None), _) => 3,
    }
}

/// What both writing calls go on with: 3 for the bytes of the starts.
fn write_with(
    numbers: impl Numbers,
    table: &[u8],
    starts: &[u8],
    write: impl FnOnce(&Figures, &Book, &[u16]) -> u8,
) -> u8 {
    job_call(numbers.try_into(), job::has_room, table, |f, book| {
        if starts.len() != 2 * f.m {
            return 3;
        }
        write(f, book, &starts_of(starts)[..f.m])
    })
}

pub fn job_write(
    numbers: impl Numbers,
    table: &[u8],
    starts: &[u8],
    payload: &[u8],
    word: &mut [u8],
) -> u8 {
    write_with(numbers, table, starts, |f, book, starts| {
        job::write_job(f, book, starts, payload, word)
    })
}

pub fn job_read(numbers: impl Numbers, table: &[u8], word: &[u8], payload: &mut [u8]) -> u8 {
    job_call(numbers.try_into(), job::has_room, table, |f, book| {
        job::read_job(f, book, word, payload)
    })
}

pub fn move_to_a((n, q, m, b): Ranked, table: &[u8], strip: &[u8], moved: &mut [u8]) -> u8 {
    let layouts = Layouts::new(n, q, m, b);
    job_call(layouts, Layouts::have_room, table, |both, book| {
        both.from_larsson(book, strip, moved)
    })
}

pub fn move_to_larsson((n, q, m, b): Ranked, table: &[u8], strip: &[u8], moved: &mut [u8]) -> u8 {
    let layouts = Layouts::new(n, q, m, b);
    job_call(layouts, Layouts::have_room, table, |both, book| {
        both.to_larsson(book, strip, moved)
    })
}
