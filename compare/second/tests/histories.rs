//! Demand 3 over every short list of calls: each answers as the ledger does, and a job is handed out by what is left of its history. Document 02's
//! change requests 3, 7 and 10.

use second::book::{Former, Place, PLACES};
use second::Book;

#[derive(Clone, Copy, PartialEq, Eq, Debug)]
enum Call {
    Open,
    Cancel,
    Finish,
    Reinstate,
    Hold,
    Release,
}
use Call::{Cancel, Finish, Hold, Open, Reinstate, Release};

const CALLS: [Call; 6] = [Open, Cancel, Finish, Reinstate, Hold, Release];
/// Calls in a list.
const LENGTH: usize = 5;

/// What is left of one number's accepted calls once a cancellation followed by its reinstatement and a hold followed by its release are struck
/// out, inner pairs first.
fn left(accepted: &[Call]) -> Vec<Call> {
    let mut left = accepted.to_vec();
    let pair = |calls: &[Call]| matches!(calls, [Cancel, Reinstate] | [Hold, Release]);
    while let Some(at) = left.windows(2).position(pair) {
        left.drain(at..at + 2);
    }
    left
}

/// What a reading of the job answers by its history.
fn reading(accepted: &[Call]) -> u8 {
    match left(accepted).last() {
        Some(Open) => 0,
        Some(Hold) => 23,
        Some(Cancel) => 12,
        None | Some(Finish) => 14,
        Some(Reinstate | Release) => panic!("{accepted:?} has a call without its fellow"),
    }
}

/// What the ledger knows of a number.
#[derive(Clone, Copy, PartialEq, Eq, Debug)]
enum State {
    Unknown,
    Open,
    Held,
}

/// A number's state, or its state before its cancellation, and its accepted calls.
#[derive(Clone, Debug)]
struct Entry {
    number: u32,
    state: State,
    cancelled: bool,
    accepted: Vec<Call>,
}

/// The ledger: it knows calls by their kinds and numbers alone.
#[derive(Clone, Debug)]
struct Ledger {
    entries: [Entry; 2],
    /// How many other numbers are open all the time.
    others: usize,
}

impl Ledger {
    fn answer(&self, call: Call, i: usize) -> u8 {
        let known = |entry: &&Entry| entry.cancelled || entry.state != State::Unknown;
        let full = self.others + self.entries.iter().filter(known).count() == 64;
        let entry = &self.entries[i];
        let absent = !known(&entry);
        match (call, entry.state) {
            (Open, _) if entry.number == 0 => 17,
            (Cancel, _) if entry.number == 0 && absent => 17,
            (Reinstate, _) => 20 * !entry.cancelled as u8,
            _ if entry.cancelled => 12,
            (Finish | Hold, State::Held) => 23,
            (Release, State::Unknown | State::Open) => 24,
            (Open, State::Open | State::Held) => 13,
            (Finish | Hold, State::Unknown) => 14,
            (Open | Cancel, State::Unknown) if full => 15,
            _ => 0,
        }
    }

    fn accept(&mut self, call: Call, i: usize) {
        let entry = &mut self.entries[i];
        match call {
            Cancel => entry.cancelled = true,
            Reinstate => entry.cancelled = false,
            Open | Release => entry.state = State::Open,
            Hold => entry.state = State::Held,
            Finish => entry.state = State::Unknown,
        }
        entry.accepted.push(call);
    }
}

fn make(book: &mut Book, call: Call, number: u32) -> u8 {
    match call {
        Open => book.open(number),
        Cancel => book.cancel(number),
        Finish => book.finish(number),
        Reinstate => book.reinstate(number),
        Hold => book.hold(number),
        Release => book.release(number),
    }
}

/// Every list of so many calls on the ledger's numbers.
fn lists(book: &Book, ledger: &Ledger, calls: usize) {
    for (i, entry) in ledger.entries.iter().enumerate() {
        let read = book.require_open(entry.number).err().unwrap_or(0);
        assert_eq!(read, reading(&entry.accepted), "{ledger:?}");
        for &call in CALLS.iter().filter(|_| calls > 0) {
            let (mut after, mut next) = (book.clone(), ledger.clone());
            let answer = make(&mut after, call, entry.number);
            assert_eq!(answer, ledger.answer(call, i), "{call:?} {ledger:?}");
            if answer == 0 {
                next.accept(call, i);
            } else {
                assert_eq!(after, *book, "a refused call leaves the book alone");
            }
            lists(&after, &next, calls - 1);
        }
    }
}

/// All lists from a book, where the first of the numbers has these former calls.
fn from(book: &Book, numbers: [u32; 2], former: &[Call], others: usize) {
    let entries = numbers.map(|number| Entry {
        number,
        state: State::Unknown,
        cancelled: false,
        accepted: Vec::new(),
    });
    let mut ledger = Ledger { entries, others };
    former.iter().for_each(|&call| ledger.accept(call, 0));
    lists(book, &ledger, LENGTH);
}

#[test]
fn from_the_empty_book() {
    from(&Book::default(), [7, u32::MAX], &[], 0);
    from(&Book::default(), [0, 1], &[], 0);
}

/// One place is left, or none.
#[test]
fn from_a_book_that_is_nearly_full() {
    for others in [63, 64] {
        let mut book = Book::default();
        assert!((1000..1000 + others).all(|number| book.open(number) == 0));
        from(&book, [7, 8], &[], others as usize);
    }
}

/// A book that holds 0 alone, as former accepted calls may have left it.
#[test]
fn from_a_book_with_zero() {
    let alone: [(Place, &[Call]); 4] = [
        (Place::Open(0), &[Open]),
        (Place::Cancelled(0, Former::Open), &[Open, Cancel]),
        (Place::Cancelled(0, Former::Absent), &[Cancel]),
        (Place::Cancelled(0, Former::Held), &[Open, Hold, Cancel]),
    ];
    for at in [0, 63] {
        for (place, former) in alone {
            let mut places = [Place::Free; PLACES];
            places[at] = place;
            let book = Book::from_places(places).expect("no number stands twice");
            from(&book, [0, 1], former, 0);
        }
    }
}
