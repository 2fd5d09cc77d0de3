//! Document 02's change request 9: jobs moved between the Larsson code and Construction A.

use std::collections::BTreeSet;

use second::book::{Former, Place, PLACES};
use second::choose::unrank;
use second::codec::{decode, encode};
use second::job::{payload_len, read_job, width, write_job};
use second::moving::Layouts;
use second::{Book, Figures};

type Move = fn(&Layouts, &Book, &[u8], &mut [u8]) -> u8;

/// A direction: the figures moved from and to, and the call.
struct Way {
    from: Figures,
    to: Figures,
    go: Move,
}

/// Both directions of figures that fit in both codes.
fn ways(n: u32, q: u32, m: u32, b: u32) -> [Way; 2] {
    let larsson = Figures::larsson(n, q, m, b).expect("these figures fit");
    let construction_a = Figures::new(n, q, m, b).expect("these figures fit");
    let way = |from, to, go| Way { from, to, go };
    [
        way(larsson, construction_a, Layouts::from_larsson as Move),
        way(construction_a, larsson, Layouts::to_larsson as Move),
    ]
}

fn layouts(f: &Figures) -> Layouts {
    let fits = Layouts::new(f.n as u32, f.q, f.m as u32, f.b as u32);
    fits.expect("these figures fit in both codes")
}

/// Moves, and sees that a refusal leaves the word alone.
fn moved(way: &Way, book: &Book, found: &[u8]) -> Result<Vec<u8>, u8> {
    let mut word = vec![0xEE; way.to.n];
    match (way.go)(&layouts(&way.from), book, found, &mut word) {
        0 => Ok(word),
        refusal => {
            assert!(word.iter().all(|&cell| cell == 0xEE));
            Err(refusal)
        }
    }
}

/// A book with one number.
fn book(place: Place) -> Book {
    let mut places = [Place::Free; PLACES];
    places[9] = place;
    Book::from_places(places).expect("no number stands twice")
}

/// The word of a job under any number.
fn word(f: &Figures, starts: &[u16], payload: &[u8]) -> Vec<u8> {
    let mut message = vec![0; f.k];
    for (symbols, &byte) in message.chunks_exact_mut(width(f.q)).zip(payload) {
        let mut left = byte as u32;
        for symbol in symbols.iter_mut().rev() {
            *symbol = (left % f.q) as u8;
            left /= f.q;
        }
    }
    let mut word = vec![0; f.n];
    assert_eq!(encode(f, starts, &message, &mut word), 0);
    word
}

/// A payload of so many bytes, of which those past `used` are 0.
fn payload(number: u32, len: usize, used: usize) -> Vec<u8> {
    let mut payload: Vec<u8> = (0..len).map(|i| i as u8 | 0x40).collect();
    payload[..4].copy_from_slice(&number.to_be_bytes());
    payload[used.min(len)..].fill(0);
    payload
}

/// Either payload can be the longer one, and with a smaller alphabet symbols are left over.
const FIGURES: [(u32, u32, u32, u32); 8] = [
    (11, 256, 2, 1),
    (40, 256, 1, 2),
    (300, 256, 1, 20),
    (120, 3, 1, 9),
    (90, 16, 3, 3),
    (120, 255, 2, 9),
    (400, 2, 2, 12),
    (999, 256, 8, 15),
];

#[test]
fn either_payload_can_be_longer() {
    let lens = FIGURES.map(|(n, q, m, b)| ways(n, q, m, b).map(|way| payload_len(&way.from)));
    assert_eq!(lens[0], [6, 5]);
    assert!(lens.iter().any(|[larsson, a]| larsson > a));
    assert!(lens.iter().any(|[larsson, a]| larsson == a));
    assert!(lens.iter().any(|[larsson, a]| larsson < a));
}

#[test]
fn there_and_back() {
    let book = book(Place::Open(7));
    for (n, q, m, b) in FIGURES {
        let [old, new] = ways(n, q, m, b);
        for (there, back) in [(&old, &new), (&new, &old)] {
            let (from, to) = (&there.from, &there.to);
            let (len, less) = (payload_len(from), payload_len(from).min(payload_len(to)));
            let step = from.t.div_ceil(40);
            for rank in (0..from.t).step_by(step as usize) {
                let starts = unrank(from, rank);
                let starts = &starts[..from.m];
                let payload = payload(7, len, less);
                let original = word(from, starts, &payload);
                let mut found = original.clone();
                for &start in starts {
                    found[start as usize..start as usize + from.b].fill(q.min(255) as u8);
                }
                let other = moved(there, &book, &found).expect("an open job");
                same_job(to, &book, &other, starts, &payload);
                // The message is the original, and the runs are 0.
                assert_eq!(moved(back, &book, &other), Ok(original));
            }
        }
    }
}

/// The moved job has the placement, number and text, and ends in zero bytes.
fn same_job(f: &Figures, book: &Book, word: &[u8], starts: &[u16], payload: &[u8]) {
    let (mut message, mut at) = (vec![0; f.k], vec![0; f.m]);
    assert_eq!(decode(f, word, &mut message, &mut at), 0);
    assert_eq!(at, starts);
    let mut wanted = payload.to_vec();
    wanted.resize(payload_len(f), 0);
    let mut read = vec![0; wanted.len()];
    assert_eq!(read_job(f, book, word, &mut read), 0);
    assert_eq!(read, wanted);
    let mut written = vec![0; f.n];
    assert_eq!(write_job(f, book, starts, &wanted, &mut written), 0);
    assert_eq!(written, word);
}

/// 22 is for surplus bytes, whichever of them isn't 0.
#[test]
fn surplus_bytes() {
    let book = book(Place::Open(7));
    let mut seen = 0;
    for way in FIGURES
        .into_iter()
        .flat_map(|(n, q, m, b)| ways(n, q, m, b))
    {
        let (len, room) = (payload_len(&way.from), payload_len(&way.to));
        let starts = unrank(&way.from, way.from.t / 2);
        let starts = &starts[..way.from.m];
        for at in 4..len {
            let mut payload = payload(7, len, 4);
            payload[at] = 1;
            let answer = moved(&way, &book, &word(&way.from, starts, &payload));
            assert_eq!(answer.err(), (at >= room).then_some(22));
            seen += (at >= room) as usize;
        }
    }
    assert!(seen > 2);
}

#[test]
fn both_layouts_must_fit() {
    let fits = |n, q, m, b| Layouts::new(n, q, m, b).err().unwrap_or(0);
    assert_eq!(fits(3, 2, 3, 1), 2);
    assert_eq!(fits(6, 5, 2, 1), 2);
    assert_eq!(fits(3, 4, 1, 1), 0);
    assert_eq!(fits(2, 4, 1, 1), 1);
    assert_eq!(fits(3, 4, 1, 2), 2);
    assert_eq!(fits(4097, 256, 1, 4097), 1);
}

/// 10 for either payload, then 3 for either strip, then the word reader's refusals.
#[test]
fn the_order_of_input_refusals() {
    let empty = Book::default();
    // The Larsson code has 5 bytes, Construction A 4.
    for way in ways(10, 256, 2, 1) {
        assert_eq!(payload_len(&way.from) + payload_len(&way.to), 9);
        let answer = (way.go)(&layouts(&way.from), &empty, &[], &mut []);
        assert_eq!(answer, 10);
    }
    let reader = [21, 7];
    for (way, blank) in ways(30, 16, 1, 2).into_iter().zip(reader) {
        let n = way.from.n;
        let both = layouts(&way.from);
        assert_eq!(
            (way.go)(&both, &empty, &vec![99; n - 1], &mut vec![0; n]),
            3
        );
        assert_eq!(
            (way.go)(&both, &empty, &vec![99; n], &mut vec![0; n + 1]),
            3
        );
        assert_eq!(moved(&way, &empty, &vec![99; n]), Err(4));
        // Nothing tells of a placement.
        let mut found: Vec<u8> = (0..n).map(|i| 1 + (i % 15) as u8).collect();
        assert_eq!(moved(&way, &empty, &found), Err(blank));
        found.fill(16);
        assert_eq!(moved(&way, &empty, &found), Err(blank));
        // A silent message cell, then a leftover symbol or a value of 256 that isn't there.
        let len = payload_len(&way.from);
        let sound = word(&way.from, &[12], &payload(7, len, 4));
        assert_eq!(moved(&way, &empty, &sound), Err(14));
        let at = sound
            .iter()
            .position(|&cell| cell == 7)
            .expect("the number");
        found = sound.clone();
        found[at] = 16;
        assert_eq!(moved(&way, &empty, &found), Err(19));
    }
    // With q 17 two symbols can spell more than a byte.
    for way in ways(40, 17, 1, 2) {
        let len = payload_len(&way.from);
        let mut found = word(&way.from, &[18], &payload(7, len, 4));
        let at = found
            .iter()
            .position(|&cell| cell == 7)
            .expect("the number");
        found[at - 1] = 16;
        assert_eq!(moved(&way, &empty, &found), Err(10));
    }
}

/// What the job reader refuses, the move refuses likewise: two cells of every word changed, and found values at the heads.
#[test]
fn the_readers_refusals() {
    let open = book(Place::Open(7));
    let readers: [&[u8]; 2] = [&[0, 4, 8, 9, 10, 14, 19, 21], &[0, 4, 7, 8, 9, 10, 14, 19]];
    for (way, possible) in ways(30, 17, 1, 2).into_iter().zip(readers) {
        let sound = word(&way.from, &[12], &payload(7, payload_len(&way.from), 5));
        let mut seen = BTreeSet::new();
        let mut both = |found: &[u8]| {
            let mut payload = vec![0; payload_len(&way.from)];
            let read = read_job(&way.from, &open, found, &mut payload);
            assert_eq!(moved(&way, &open, found).err().unwrap_or(0), read);
            seen.insert(read);
        };
        for (one, other) in (0..30).flat_map(|one| (0..30).map(move |other| (one, other))) {
            for (high, low) in (0..=18).flat_map(|high| (0..=18).map(move |low| (high, low))) {
                let mut found = sound.clone();
                (found[one], found[other]) = (high, low);
                both(&found);
            }
        }
        // Two of three sub-blocks.
        for (high, low) in (0..17).flat_map(|high| (0..17).map(move |low| (high, low))) {
            let mut found = sound.clone();
            (found[0], found[1], found[28], found[29]) = (high, low, high, low);
            both(&found);
        }
        assert_eq!(seen, possible.iter().copied().collect());
    }
}

/// 12 23 14 go before 22, and 22 before 17.
#[test]
fn the_order_of_state_refusals() {
    for number in [7, 0] {
        for (place, refusal) in [
            (Place::Free, 14),
            (Place::Open(number), 0),
            (Place::Held(number), 23),
            (Place::Cancelled(number, Former::Absent), 12),
            (Place::Cancelled(number, Former::Open), 12),
            (Place::Cancelled(number, Former::Held), 12),
        ] {
            // From 6 bytes to 5, and back.
            for way in ways(11, 256, 2, 1) {
                let len = payload_len(&way.from);
                let starts = [3, 8];
                let plain = word(&way.from, &starts, &payload(number, len, 5));
                let surplus = word(&way.from, &starts, &payload(number, len, 6));
                let wanted = match (refusal, number) {
                    (0, 0) => 17,
                    _ => refusal,
                };
                let answer = |found: &[u8]| moved(&way, &book(place), found).err().unwrap_or(0);
                assert_eq!(answer(&plain), wanted);
                let wanted = match (refusal, len) {
                    (0, 6) => 22,
                    _ => wanted,
                };
                assert_eq!(answer(&surplus), wanted);
            }
        }
    }
}
