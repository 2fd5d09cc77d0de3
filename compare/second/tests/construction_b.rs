//! Document 02's change request 1: Construction B, for one long run.

mod exhaustive;
mod wording;

use std::collections::BTreeSet;

use second::book::{Former, Place, PLACES};
use second::codec::{decode, encode, read};
use second::cover::cover;
use second::job::{payload_len, read_job, write_job};
use second::transfer::transfer;
use second::{Book, Figures};

fn figures(n: u32, q: u32, b: u32) -> Figures {
    Figures::construction_b(n, q, b).expect("these figures fit")
}

/// Calls `each` with all figures that fit up to a word length.
fn fitting(longest: u32, each: &mut impl FnMut(Figures)) {
    for n in 3..=longest {
        for q in [2, 3, 4, 7, 16, 255, 256] {
            (1..=n)
                .filter_map(|b| Figures::construction_b(n, q, b).ok())
                .for_each(&mut *each);
        }
    }
}

#[test]
fn the_papers_figures() {
    let f = figures(20, 2, 5);
    assert_eq!((f.t, f.r, f.k), (16, 3, 10));
    assert!(Figures::construction_b(20, 2, 6).is_ok());
    // Document 003 would take 7, n / 3 rounded up.
    assert_eq!(Figures::construction_b(20, 2, 7), Err(2));
    let least = figures(3, 2, 1);
    assert_eq!((least.t, least.r, least.k), (3, 0, 0));
    assert_eq!(Figures::construction_b(4, 2, 1), Err(2));
    let longest = figures(4096, 256, 1365);
    assert_eq!((longest.t, longest.r, longest.k), (2732, 1, 2728));
    assert_eq!(Figures::construction_b(4096, 256, 1366), Err(2));
}

#[test]
fn figures_out_of_range() {
    for (n, q, b) in [
        (0, 2, 1),
        (2, 2, 1),
        (4097, 2, 1),
        (u32::MAX, 2, 1),
        (20, 0, 1),
        (20, 1, 1),
        (20, 257, 1),
        (20, u32::MAX, 1),
        (20, 2, 0),
        (2, 1, 0),
    ] {
        assert_eq!(Figures::construction_b(n, q, b), Err(1));
    }
    for b in [7, 20, 21, 65536, 1 << 31, u32::MAX] {
        assert_eq!(Figures::construction_b(20, 2, b), Err(2));
    }
}

/// The figures as the paper words them: r is searched for.
#[test]
fn figures_by_their_wording() {
    for n in 3..=400u32 {
        for q in [2, 3, 4, 5, 7, 16, 134, 135, 255, 256] {
            let spelled = |r: &u32| (q as u128 - 1) * (q as u128).pow(*r) >= n.div_ceil(3) as u128;
            let r = (0..12).find(spelled).expect("enough symbols");
            for b in 1..=n + 1 {
                let fits = b <= n / 3 && r < n / 3;
                let wanted = if fits {
                    Ok((n - b + 1, r, n - b - r - 2))
                } else {
                    Err(2)
                };
                let figures = Figures::construction_b(n, q, b);
                let found = figures.map(|f| (f.t as u32, f.r as u32, f.k as u32));
                assert_eq!(found, wanted, "{n} {q} {b}");
            }
        }
    }
}

/// A word as the paper words it, cell by cell.
fn by_wording(f: &Figures, start: usize, message: &[u8]) -> Vec<u8> {
    let longer = f.n % 3;
    let lens: Vec<usize> = (0..3)
        .map(|i| f.n / 3 + (i >= 3 - longer) as usize)
        .collect();
    let begin = |part: usize| lens[..part].iter().sum::<usize>();
    let last = start + f.b - 1;
    let burst = (0..3).rfind(|&part| begin(part) <= last).expect("a part");
    let (index, fixed) = ((burst + 1) % 3, (burst + 2) % 3);
    let mut cells: Vec<Option<u8>> = vec![None; f.n];
    cells[start..=last].fill(Some(0));
    cells[begin(fixed)] = Some(0);
    let q = f.q as usize;
    let mut value = last - begin(burst);
    for i in (1..=f.r).rev() {
        cells[begin(index) + i] = Some((value % q) as u8);
        value /= q;
    }
    assert!(value < q - 1);
    cells[begin(index)] = Some(value as u8 + 1);
    wording::filled(&cells, message)
}

/// Writes, compares with the wording, and reads back with values at will inside the run.
fn there_and_back(f: &Figures, start: usize) {
    let message: Vec<u8> = (0..f.k).map(|i| ((i + 1) % f.q as usize) as u8).collect();
    let mut word = vec![0xEE; f.n];
    assert_eq!(encode(f, &[start as u16], &message, &mut word), 0);
    assert_eq!(word, by_wording(f, start, &message), "{f:?} {start}");
    // q, where it is a byte, is a silent cell.
    for damage in [0, 1, (f.q - 1) as u8, f.q.min(255) as u8] {
        word[start..start + f.b].fill(damage);
        let (mut found, mut at) = (vec![0xEE; f.k], [0xEEEE]);
        assert_eq!(decode(f, &word, &mut found, &mut at), 0, "{f:?} {start}");
        assert_eq!((&found, at), (&message, [start as u16]));
        // The rank of one run is its start.
        assert_eq!(read(f, &word).expect("an accepted word").rank, start as u64);
    }
}

#[test]
fn words() {
    fitting(60, &mut |f| {
        (0..f.t as usize).for_each(|start| there_and_back(&f, start));
    });
    for (n, b) in [(4096, 1), (4096, 1365), (4095, 1365), (1024, 300)] {
        for q in [2, 255, 256] {
            let f = figures(n, q, b);
            let starts = (0..f.t as usize).step_by(13).chain([f.t as usize - 1]);
            starts.for_each(|start| there_and_back(&f, start));
        }
    }
}

/// Parts of 6, 7 and 7: the run ends in each in turn.
#[test]
fn three_situations() {
    let f = figures(20, 2, 5);
    for (start, wanted) in [
        (0, "00000 1; 1100 111; 0 111111"),
        (5, "0 1111 0; 0000 111; 1011 111"),
        (15, "1110 11; 0 111111; 11 00000"),
    ] {
        let cells = wanted.bytes().filter(u8::is_ascii_digit);
        let wanted: Vec<u8> = cells.map(|digit| digit - b'0').collect();
        let mut word = [0xEE; 20];
        assert_eq!(encode(&f, &[start], &[1; 10], &mut word), 0);
        assert_eq!(word[..], wanted);
    }
}

#[test]
fn every_word_of_small_figures() {
    let small = [
        (3, 2, 1),
        (3, 3, 1),
        (4, 3, 1),
        (5, 3, 1),
        (6, 2, 1),
        (6, 2, 2),
        (6, 4, 2),
        (7, 3, 2),
        (8, 3, 2),
        (9, 2, 1),
        (9, 2, 3),
        (10, 2, 3),
    ];
    let answers = small.map(|(n, q, b)| exhaustive::every_word(&figures(n, q, b)));
    let answers: BTreeSet<u8> = answers.into_iter().flatten().collect();
    assert_eq!(answers, [0, 4, 7, 8, 9, 19].into());
}

/// The writer's order: 3 5 4.
#[test]
fn refused_writing() {
    let f = figures(20, 3, 6);
    assert_eq!(f.k, 10);
    let refused = |starts: &[u16], message: &[u8], len: usize| {
        let mut word = vec![0xEE; len];
        let answer = encode(&f, starts, message, &mut word);
        assert!(answer == 0 || word.iter().all(|&cell| cell == 0xEE));
        answer
    };
    for starts in [&[][..], &[1, 8], &[99, 99]] {
        assert_eq!(refused(starts, &[3; 10], 20), 3);
    }
    assert_eq!(refused(&[99], &[3; 9], 20), 3);
    assert_eq!(refused(&[99], &[3; 10], 21), 3);
    for start in [15, 20, u16::MAX] {
        assert_eq!(refused(&[start], &[3; 10], 20), 5);
    }
    assert_eq!(refused(&[14], &[3; 10], 20), 4);
    assert_eq!(refused(&[14], &[2; 10], 20), 0);
}

/// 8 is by the B part's length, which is 6 for part 0 and 7 for the others; 9 is for a run that starts before position 0.
#[test]
fn values_of_the_index_block() {
    let f = figures(20, 2, 5);
    for (start, index, len) in [(0, 6, 6), (5, 13, 7), (15, 0, 7)] {
        let mut word = [0; 20];
        assert_eq!(encode(&f, &[start], &[1; 10], &mut word), 0);
        let part = [13, 0, 6][index / 6];
        for value in 0..8 {
            for (i, shift) in [2, 1, 0].into_iter().enumerate() {
                word[index + 1 + i] = value >> shift & 1;
            }
            let answer = decode(&f, &word, &mut [0; 10], &mut [0]);
            let wanted = match part + value as usize {
                _ if value >= len => 8,
                last if last < 4 => 9,
                _ => 0,
            };
            assert_eq!(answer, wanted, "{start} {value}");
        }
    }
}

#[test]
fn coverings() {
    let f = figures(20, 2, 6);
    let covered = |worn: &[usize]| {
        let mut map = [0; 20];
        worn.iter().for_each(|&cell| map[cell] = 1);
        cover(&f, &map).map(|starts| starts[0])
    };
    assert_eq!(covered(&[]), Ok(0));
    for first in 0..20 {
        for last in first..20 {
            // The least start from which a run reaches the last worn cell, where the first is inside too.
            let wanted = match last - first {
                0..6 => Ok((last as u16).saturating_sub(5)),
                _ => Err(6),
            };
            assert_eq!(covered(&[first, last]), wanted);
        }
    }
    assert_eq!(cover(&f, &[0; 19]), Err(3));
    assert_eq!(cover(&f, &[2; 20]), Err(4));
    assert_eq!(cover(&f, &[2; 21]), Err(3));
}

/// A book with one number.
fn book(place: Place) -> Book {
    let mut places = [Place::Free; PLACES];
    places[9] = place;
    Book::from_places(places).expect("no number stands twice")
}

/// A book's only place for number 7, and what writing and reading that job answer.
const STATES: [(Place, u8); 6] = [
    (Place::Free, 14),
    (Place::Open(7), 0),
    (Place::Held(7), 23),
    (Place::Cancelled(7, Former::Absent), 12),
    (Place::Cancelled(7, Former::Open), 12),
    (Place::Cancelled(7, Former::Held), 12),
];

#[test]
fn jobs() {
    let f = figures(15, 256, 5);
    assert_eq!((f.k, payload_len(&f)), (8, 8));
    for (place, wanted) in STATES {
        let book = book(place);
        for start in 0..=10u16 {
            let mut word = [0xEE; 15];
            let answer = write_job(&f, &book, &[start], b"\0\0\0\x07ABCD", &mut word);
            assert_eq!(answer, wanted);
            assert!(answer == 0 || word == [0xEE; 15]);
            // Whatever the book says, the word can be found.
            assert_eq!(encode(&f, &[start], b"\0\0\0\x07ABCD", &mut word), 0);
            word[start as usize..start as usize + 5].fill(0xFF);
            let mut payload = [0xEE; 8];
            assert_eq!(read_job(&f, &book, &word, &mut payload), wanted);
            let kept = if wanted == 0 {
                b"\0\0\0\x07ABCD"
            } else {
                &[0xEE; 8]
            };
            assert_eq!(payload, *kept);
        }
    }
    assert_eq!(
        write_job(&f, &book(Place::Open(0)), &[0], &[0; 8], &mut [0; 15]),
        17
    );
}

/// The job calls' orders: 10 for K, then 3, then 5 or what the word reader says, 10 for the spelling, then the book.
#[test]
fn refused_jobs() {
    let empty = Book::default();
    let none = figures(9, 256, 3);
    assert_eq!(payload_len(&none), 4);
    assert_eq!(write_job(&none, &empty, &[], &[], &mut []), 10);
    assert_eq!(read_job(&none, &empty, &[], &mut []), 10);
    let least = figures(10, 256, 3);
    assert_eq!(payload_len(&least), 5);
    assert_eq!(write_job(&least, &empty, &[], &[], &mut []), 3);
    assert_eq!(write_job(&least, &empty, &[8], &[0; 5], &mut [0; 10]), 5);
    assert_eq!(write_job(&least, &empty, &[7], &[0; 5], &mut [0; 10]), 17);
    assert_eq!(write_job(&least, &empty, &[7], &[9; 5], &mut [0; 10]), 14);
    // Two symbols to a byte, and one left over.
    let f = figures(30, 255, 9);
    assert_eq!((f.k, payload_len(&f)), (19, 9));
    let read = |word: &[u8]| read_job(&f, &empty, word, &mut [0; 9]);
    let mut word = [0; 30];
    assert_eq!(read(&word[1..]), 3);
    assert_eq!(read(&word), 7);
    assert_eq!(encode(&f, &[20], &[0; 19], &mut word), 0);
    assert_eq!(read(&word), 14);
    // Behind the run is the leftover symbol; a silent cell among the message goes before it, one in the run doesn't matter.
    word[29] = 1;
    assert_eq!(read(&word), 10);
    word[28] = 255;
    assert_eq!(read(&word), 10);
    word[19] = 255;
    assert_eq!(read(&word), 19);
}

fn bytes(hex: &str) -> Vec<u8> {
    let digits: Vec<u32> = hex.chars().filter_map(|digit| digit.to_digit(16)).collect();
    digits
        .chunks_exact(2)
        .map(|pair| (pair[0] << 4 | pair[1]) as u8)
        .collect()
}

fn printed(hex: &str) -> String {
    String::from_utf8(transfer(&bytes(hex))).expect("plain letters")
}

const OPENED: &str = "4C54 4C 000F FF 0005; 4C54 4F 00000007;";

#[test]
fn the_record() {
    let stream = format!("{OPENED} 4C54 57 0006 0000000741424344");
    let lines = "L 0 11 0 8\nO 0\nW 0 010000000700000000000041424344\nend\n";
    assert_eq!(printed(&stream), lines);
    assert_eq!(printed("4C54 4C 0014 01 0005"), "L 0 16 3 10\nend\n");
    assert_eq!(
        printed("4C54 4C 1000 FF 0555; 4C54 4C 1000 FF 0556; 4C54 4C 1001 FF 0555"),
        "L 0 2732 1 2728\nL 2\nL 1\nend\n"
    );
}

/// W and R go by the last accepted S or L.
#[test]
fn figures_in_turn() {
    let (s, l) = ("4C54 53 000F FF 01 0002;", "4C54 4C 000F FF 0005;");
    let (w_s, w_l) = (
        "4C54 57 0006 0000000741424344454647;",
        "4C54 57 0006 0000000741424344;",
    );
    let (r_s, r_l) = (
        "4C54 52 000000000741FFFF42430744454647;",
        "4C54 52 0100000007 00FFFFFFFFFF 41424344;",
    );
    let refused = "4C54 4C 000F FF 0006; 4C54 4C 0002 FF 0001; 4C54 4C 000F 00 0001; 4C54 53 000F FF 01 0006;";
    let stream = format!(
        "4C54 4F 00000007; {s} {w_s} {r_s} {l} {w_l} {refused} {w_l} {r_l} {s} {refused} {r_s} {w_s}"
    );
    let (wrote_s, wrote_l) = (
        "W 0 000000000741000042430744454647",
        "W 0 010000000700000000000041424344",
    );
    let (had_s, had_l) = ("R 0 00000007 41424344454647", "R 0 00000007 41424344");
    let no = "L 2\nL 1\nL 1\nS 2";
    let lines = format!(
        "O 0\nS 0 14 0 11\n{wrote_s}\n{had_s}\nL 0 11 0 8\n{wrote_l}\n{no}\n{wrote_l}\n{had_l}\nS 0 14 0 11\n{no}\n{had_s}\n{wrote_s}\nend\n"
    );
    assert_eq!(printed(&stream), lines);
}

#[test]
fn cut_and_refused_records() {
    let record = bytes("4C54 4C 000F FF 0005");
    for cut in 1..record.len() {
        assert_eq!(transfer(&record[..cut]), b"stop 11\n");
    }
    // A refused L before any accepted record leaves no figures.
    assert_eq!(
        printed("4C54 4C 000F FF 0006; 4C54 52 00"),
        "L 2\nstop 11\n"
    );
    let w = |start: &str| printed(&format!("{OPENED} 4C54 57 {start} 0000000741424344"));
    assert_eq!(w("000B"), "L 0 11 0 8\nO 0\nW 5\nend\n");
    assert_eq!(
        printed("4C54 4C 0003 01 0001; 4C54 57 0000; 4C54 52 000000"),
        "L 0 3 0 0\nW 10\nR 10\nend\n"
    );
}
