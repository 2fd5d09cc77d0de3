//! Document 02's change request 2: writing and reading a job whose text is a prescription, under each code's figures.

use second::book::{Former, Place, PLACES};
use second::figures::Code;
use second::job::{payload_len, read_job, write_job};
use second::prescription::{read_prescription, to_text, write_prescription, Eye, Prescription};
use second::{Book, Figures};

const ORDER: Prescription = Prescription {
    right: Eye::Toric {
        sphere: 0.0,
        cylinder: -0.125,
        axis: 180,
    },
    left: Eye::Plano,
    pupil_distance: 80.0,
};

/// An order that the rules don't allow.
const REFUSED: Prescription = Prescription {
    pupil_distance: 80.5,
    ..ORDER
};

/// One run of 2, with each byte a symbol: K is n - 4 in each code.
fn strips(payload: usize) -> [Figures; 3] {
    let n = payload as u32 + 4;
    let each = [
        Figures::new(n, 256, 1, 2),
        Figures::construction_b(n, 256, 2),
        Figures::larsson(n, 256, 1, 2),
    ];
    each.map(|f| {
        let f = f.expect("these figures fit");
        assert_eq!(payload_len(&f), payload);
        f
    })
}

/// A book with one number.
fn book(place: Place) -> Book {
    let mut places = [Place::Free; PLACES];
    places[9] = place;
    Book::from_places(places).expect("no number stands twice")
}

/// Writes, and sees that a refusal leaves the word alone.
fn written(
    f: &Figures,
    book: &Book,
    job: u32,
    order: &Prescription,
    start: u16,
) -> Result<Vec<u8>, u8> {
    let mut word = vec![0xEE; f.n];
    match write_prescription(f, book, job, order, &[start], &mut word) {
        0 => Ok(word),
        refusal => {
            assert!(word.iter().all(|&cell| cell == 0xEE));
            Err(refusal)
        }
    }
}

#[test]
fn there_and_back() {
    let book = book(Place::Open(7));
    for f in [17, 18, 40].into_iter().flat_map(strips) {
        for start in 0..=f.n - 2 {
            let mut word = written(&f, &book, 7, &ORDER, start as u16).expect("an open job");
            word[start..start + 2].fill(0xFF);
            assert_eq!(read_prescription(&f, &book, &word), Ok((7, ORDER)));
            // A plain reading gives the text.
            let mut bytes = vec![0; payload_len(&f)];
            assert_eq!(read_job(&f, &book, &word, &mut bytes), 0);
            assert_eq!(bytes[..4], [0, 0, 0, 7]);
            assert_eq!(to_text(&ORDER), Ok(std::array::from_fn(|i| bytes[4 + i])));
            assert!(bytes[17..].iter().all(|&byte| byte == 0));
        }
    }
}

/// With a smaller alphabet a byte takes several symbols.
#[test]
fn several_symbols_to_a_byte() {
    let book = book(Place::Open(u32::MAX));
    for f in [
        Figures::new(200, 2, 1, 5),
        Figures::new(90, 16, 3, 3),
        Figures::new(400, 3, 4, 3),
        Figures::construction_b(300, 2, 100),
        Figures::larsson(200, 2, 1, 5),
        Figures::larsson(90, 16, 3, 3),
        Figures::larsson(400, 3, 4, 3),
    ] {
        let f = f.expect("these figures fit");
        assert!(payload_len(&f) >= 17);
        let starts: Vec<u16> = (0..f.m as u16).map(|i| 7 + 20 * i).collect();
        let mut word = vec![0; f.n];
        let answer = write_prescription(&f, &book, u32::MAX, &ORDER, &starts, &mut word);
        assert_eq!(answer, 0);
        for &start in &starts {
            word[start as usize..start as usize + f.b].fill(f.q as u8);
        }
        assert_eq!(read_prescription(&f, &book, &word), Ok((u32::MAX, ORDER)));
    }
}

#[test]
fn the_writers_order() {
    let open = book(Place::Open(7));
    let empty = Book::default();
    // 10 for K, then 3, then 5, then 16, for a payload below 17 bytes too.
    for f in [2, 4].into_iter().flat_map(strips) {
        assert_eq!(
            write_prescription(&f, &empty, 0, &REFUSED, &[], &mut []),
            10
        );
    }
    for f in [5, 16, 17].into_iter().flat_map(strips) {
        let mut word = vec![0; f.n];
        assert_eq!(
            write_prescription(&f, &open, 7, &REFUSED, &[], &mut word),
            3
        );
        assert_eq!(
            write_prescription(&f, &open, 7, &REFUSED, &[1, 4], &mut word),
            3
        );
        assert_eq!(
            write_prescription(&f, &open, 7, &REFUSED, &[99], &mut word[1..]),
            3
        );
        assert_eq!(written(&f, &open, 7, &REFUSED, f.n as u16 - 1), Err(5));
        assert_eq!(written(&f, &open, 7, &REFUSED, 1), Err(16));
        assert_eq!(
            written(&f, &open, 7, &ORDER, 1).is_ok(),
            payload_len(&f) == 17
        );
    }
    // 16 goes before 17 12 23 14.
    let each = strips(17)
        .into_iter()
        .flat_map(|f| states().into_iter().map(move |state| (f, state)));
    for (f, (place, number, refusal)) in each {
        assert_eq!(written(&f, &book(place), number, &REFUSED, 1), Err(16));
        let refusal = if number == 0 { 17 } else { refusal };
        assert_eq!(
            written(&f, &book(place), number, &ORDER, 1)
                .err()
                .unwrap_or(0),
            refusal
        );
    }
}

/// A book's only place, a number, and what a reading of it answers.
fn states() -> Vec<(Place, u32, u8)> {
    let mut states = Vec::new();
    for number in [7, 0] {
        states.push((Place::Free, number, 14));
        states.push((Place::Open(number), number, 0));
        states.push((Place::Held(number), number, 23));
        for former in [Former::Absent, Former::Open, Former::Held] {
            states.push((Place::Cancelled(number, former), number, 12));
        }
    }
    states
}

/// The word of a plain job with this text.
fn plain(f: &Figures, text: &[u8]) -> Vec<u8> {
    let mut payload = vec![0; payload_len(f)];
    payload[3] = 7;
    payload[4..4 + text.len()].copy_from_slice(text);
    let mut word = vec![0; f.n];
    assert_eq!(
        write_job(f, &book(Place::Open(7)), &[1], &payload, &mut word),
        0
    );
    word
}

#[test]
fn the_readers_order() {
    let open = book(Place::Open(7));
    let empty = Book::default();
    let read =
        |f: &Figures, book: &Book, word: &[u8]| read_prescription(f, book, word).err().unwrap_or(0);
    for f in strips(4) {
        assert_eq!(read(&f, &empty, &[]), 10);
    }
    for f in [5, 16, 17].into_iter().flat_map(strips) {
        assert_eq!(read(&f, &empty, &vec![0; f.n - 1]), 3);
        let (unread, refusal) = unread(&f);
        assert_eq!(read(&f, &empty, &unread), refusal);
        // No prescription, under any book.
        let word = plain(&f, &[]);
        assert_eq!(read(&f, &open, &word), 16);
        assert_eq!(read(&f, &empty, &word), 16);
    }
    for f in strips(18) {
        let text = to_text(&ORDER).expect("the rules allow it");
        let word = plain(&f, &text);
        for (place, number, refusal) in states().into_iter().filter(|state| state.1 == 7) {
            assert_eq!(read(&f, &book(place), &word), refusal, "{number}");
        }
        assert_eq!(read(&f, &open, &plain(&f, &[&text[..], &[1]].concat())), 16);
    }
}

/// A word that tells of no placement, and its refusal: each first symbol 0, or each sub-block another.
fn unread(f: &Figures) -> (Vec<u8>, u8) {
    match f.code {
        Code::Larsson => ((0..f.n as u8).collect(), 21),
        _ => (vec![0; f.n], 7),
    }
}

/// The message's own 10, and a silent cell's 19, go before 16.
#[test]
fn words_that_spell_no_payload() {
    let f = Figures::new(90, 255, 1, 2).expect("these figures fit");
    let open = book(Place::Open(7));
    let mut word = plain(&f, &[]);
    assert_eq!(read_prescription(&f, &open, &word), Err(16));
    word[88] = 254;
    assert_eq!(read_prescription(&f, &open, &word), Err(10));
    word[89] = 255;
    assert_eq!(read_prescription(&f, &open, &word), Err(19));
    word[89] = 0;
    word[88] = 0;
    assert_eq!(read_prescription(&f, &open, &word), Err(16));
}

/// Number 0 is read where it is open, as in plain readings.
#[test]
fn number_zero() {
    strips(17).iter().for_each(number_zero_of);
}

fn number_zero_of(f: &Figures) {
    let mut word = written(f, &book(Place::Open(1)), 1, &ORDER, 0).expect("an open job");
    let one = word
        .iter()
        .position(|&cell| cell == 1)
        .expect("the number's last byte");
    word[one] = 0;
    for (place, number, refusal) in states().into_iter().filter(|state| state.1 == 0) {
        let wanted = if refusal == 0 {
            Ok((number, ORDER))
        } else {
            Err(refusal)
        };
        assert_eq!(read_prescription(f, &book(place), &word), wanted);
    }
}
