//! Document 02's change request 3: number 0 is no job.

use second::book::{Former, Place, PLACES};
use second::codec::encode;
use second::job::{read_job, write_job};
use second::{Book, Figures};

/// A book that holds this alone, at the given place.
fn alone(at: usize, place: Place) -> Book {
    let mut places = [Place::Free; PLACES];
    places[at] = place;
    Book::from_places(places).expect("no number stands twice")
}

fn full() -> Book {
    let mut book = Book::default();
    assert!((1..=64).all(|number| book.open(number) == 0));
    book
}

/// Makes a call that is refused, and sees that the book is left alone.
fn refused(book: &Book, call: fn(&mut Book, u32) -> u8) -> u8 {
    let mut after = book.clone();
    let answer = call(&mut after, 0);
    assert_eq!(after, *book);
    answer
}

#[test]
fn a_zero_that_the_book_lacks() {
    // 17 goes ahead of 15.
    for book in [Book::default(), full()] {
        assert_eq!(refused(&book, Book::open), 17);
        assert_eq!(refused(&book, Book::cancel), 17);
        assert_eq!(refused(&book, Book::finish), 14);
    }
}

#[test]
fn a_zero_in_any_place() {
    for at in 0..PLACES {
        let mut book = alone(at, Place::Open(0));
        assert_eq!(refused(&book, Book::open), 17);
        let mut finished = book.clone();
        assert_eq!(finished.finish(0), 0);
        assert_eq!(finished, Book::default());
        assert_eq!(book.cancel(0), 0);
        assert_eq!(book, alone(at, Place::Cancelled(0, Former::Open)));
        assert_eq!(refused(&book, Book::open), 17);
        assert_eq!(refused(&book, Book::cancel), 12);
        assert_eq!(refused(&book, Book::finish), 12);
    }
}

/// It takes one of the 64 places like any other.
#[test]
fn a_zero_is_counted() {
    for zero in [
        Place::Open(0),
        Place::Cancelled(0, Former::Open),
        Place::Cancelled(0, Former::Absent),
        Place::Cancelled(0, Former::Held),
        Place::Held(0),
    ] {
        let mut book = alone(40, zero);
        assert!((1..=63).all(|number| book.open(number) == 0));
        assert_eq!(book.open(64), 15);
        assert_eq!(book.cancel(64), 15);
    }
}

/// Document 01's transfer figures, where each byte is a symbol.
fn strip() -> Figures {
    Figures::new(15, 256, 1, 2).expect("these figures fit")
}

#[test]
fn zero_is_never_written() {
    let f = strip();
    let payload = *b"\0\0\0\0ABCDEFG";
    let answer = |book: &Book, starts: &[u16], payload: &[u8]| {
        let mut word = [0xEE; 15];
        let answer = write_job(&f, book, starts, payload, &mut word);
        assert!(answer == 0 || word == [0xEE; 15]);
        answer
    };
    for book in [
        Book::default(),
        alone(5, Place::Open(0)),
        alone(63, Place::Cancelled(0, Former::Open)),
    ] {
        assert_eq!(answer(&book, &[6], &payload), 17);
        // From the input goes before from the state.
        assert_eq!(answer(&book, &[14], &payload), 5);
        assert_eq!(answer(&book, &[6], &payload[1..]), 3);
    }
}

#[test]
fn an_open_zero_is_read() {
    let f = strip();
    let mut word = [0; 15];
    assert_eq!(encode(&f, &[6], b"\0\0\0\0ABCDEFG", &mut word), 0);
    let mut payload = [0xEE; 11];
    for (book, answer) in [
        (Book::default(), 14),
        (alone(63, Place::Cancelled(0, Former::Open)), 12),
        (alone(63, Place::Open(0)), 0),
    ] {
        assert_eq!(payload, [0xEE; 11]);
        assert_eq!(read_job(&f, &book, &word, &mut payload), answer);
    }
    assert_eq!(payload, *b"\0\0\0\0ABCDEFG");
}
