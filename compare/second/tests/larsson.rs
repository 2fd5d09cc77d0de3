//! Document 02's change request 8: the Larsson code of the older trays.

mod exhaustive;
mod wording;

use std::collections::BTreeSet;

use second::choose::{choose, rank, unrank};
use second::codec::{decode, encode, read};
use second::cover::cover;
use second::job::{payload_len, read_job, write_job};
use second::{Book, Figures};

fn figures(n: u32, q: u32, m: u32, b: u32) -> Figures {
    Figures::larsson(n, q, m, b).expect("these figures fit")
}

fn numbers(f: Result<Figures, u8>) -> Result<(u64, usize, usize), u8> {
    f.map(|f| (f.t, f.r, f.k))
}

#[test]
fn figures_that_fit() {
    // One placement, which no symbol needs to tell of: b is 1 or 2.
    assert_eq!(numbers(Figures::larsson(3, 2, 3, 1)), Ok((1, 0, 0)));
    assert_eq!(numbers(Figures::larsson(6, 2, 3, 2)), Ok((1, 0, 0)));
    assert_eq!(numbers(Figures::larsson(9, 2, 3, 3)), Err(2));
    // With Construction A: this one only, that one only, both.
    assert!(Figures::new(3, 2, 3, 1).is_err());
    assert_eq!(numbers(Figures::larsson(6, 5, 2, 1)), Err(2));
    assert!(Figures::new(6, 5, 2, 1).is_ok());
    assert_eq!(numbers(Figures::larsson(3, 4, 1, 1)), Ok((3, 1, 0)));
    assert!(Figures::new(3, 4, 1, 1).is_ok());
    // Sub-blocks of 8 symbols spell 2^64 values; one placement more than 63 bits count is too many.
    assert_eq!(Figures::larsson(888, 256, 8, 1), Err(2));
    assert_eq!(Figures::larsson(888, 256, 8, 2).map(|f| f.r), Ok(8));
    assert_eq!(Figures::larsson(4096, 256, 6, 333).map(|f| f.r), Ok(8));
    assert_eq!(Figures::larsson(4096, 256, 6, 334), Err(2));
}

#[test]
fn figures_out_of_range() {
    for (n, q, m, b) in [
        (2, 2, 1, 1),
        (4097, 2, 1, 1),
        (9, 1, 1, 1),
        (9, 257, 1, 1),
        (9, 2, 0, 1),
        (9, 2, 9, 1),
        (9, 2, 1, 0),
        (0, 0, 0, 0),
    ] {
        assert_eq!(Figures::larsson(n, q, m, b), Err(1));
    }
    for b in [4, 10, 65536, 1 << 31, u32::MAX] {
        assert_eq!(Figures::larsson(9, 200, 3, b), Err(2));
    }
}

/// The gaps between the sub-blocks, shorter ones first.
fn gaps(spare: usize, count: usize) -> Vec<usize> {
    let longer = spare % count;
    (0..count)
        .map(|i| spare / count + (i >= count - longer) as usize)
        .collect()
}

/// The figures as the paper words them: R is searched for.
#[test]
fn figures_by_their_wording() {
    let mut seen = BTreeSet::new();
    for n in 3..=90usize {
        for (q, m) in [2, 3, 10, 16, 256]
            .into_iter()
            .flat_map(|q| (1..=8).map(move |m| (q, m)))
        {
            for b in (1..=n).filter(|b| m * b <= n) {
                let t = choose(n - m * b + m, m).expect("a small count");
                let spelled = |r: &u32| (q as u128).pow(*r) >= t as u128;
                let r = (0..64).find(spelled).expect("enough symbols") as usize;
                let spare = n.checked_sub((2 * m + 1) * r);
                let shortest = spare.map(|spare| gaps(spare, 2 * m)[0]);
                let wanted = match shortest {
                    Some(gap) if b <= gap + 1 => Ok((t, r, n - m * b - (m + 1) * r)),
                    _ => Err(2),
                };
                let found = Figures::larsson(n as u32, q, m as u32, b as u32);
                assert_eq!(numbers(found), wanted, "{n} {q} {m} {b}");
                seen.insert((m, wanted.is_ok()));
            }
            assert_eq!(
                Figures::larsson(n as u32, q, m as u32, n as u32 + 1),
                Err(2)
            );
        }
    }
    assert_eq!(seen.len(), 16);
}

/// Where the sub-blocks begin.
fn sub_blocks(f: &Figures) -> Vec<usize> {
    let gaps = gaps(f.n - (2 * f.m + 1) * f.r, 2 * f.m);
    (0..=2 * f.m)
        .map(|i| i * f.r + gaps[..i].iter().sum::<usize>())
        .collect()
}

/// The sub-blocks that no run touches, by where they begin.
fn untouched(f: &Figures, starts: &[u16]) -> Vec<usize> {
    let in_runs = |cell: usize| {
        let mut runs = starts.iter().map(|&start| start as usize);
        runs.any(|start| (start..start + f.b).contains(&cell))
    };
    let free = |at: &usize| !(*at..at + f.r).any(in_runs);
    sub_blocks(f).into_iter().filter(free).collect()
}

/// A word as the paper words it, cell by cell.
fn by_wording(f: &Figures, starts: &[u16], message: &[u8]) -> Vec<u8> {
    let mut cells: Vec<Option<u8>> = vec![None; f.n];
    for &start in starts {
        cells[start as usize..start as usize + f.b].fill(Some(0));
    }
    for &at in &untouched(f, starts)[..=f.m] {
        let mut left = rank(f, starts);
        for cell in cells[at..at + f.r].iter_mut().rev() {
            *cell = Some((left % f.q as u64) as u8);
            left /= f.q as u64;
        }
        assert_eq!(left, 0);
    }
    wording::filled(&cells, message)
}

/// Writes, compares with the wording, and reads back with values at will inside the runs.
fn there_and_back(f: &Figures, starts: &[u16]) {
    let message: Vec<u8> = (0..f.k).map(|i| ((i + 1) % f.q as usize) as u8).collect();
    let mut word = vec![0xEE; f.n];
    assert_eq!(encode(f, starts, &message, &mut word), 0);
    assert_eq!(word, by_wording(f, starts, &message), "{f:?} {starts:?}");
    // q, where it is a byte, is a silent cell.
    for damage in [0, 1, (f.q - 1) as u8, f.q.min(255) as u8] {
        for &start in starts {
            word[start as usize..start as usize + f.b].fill(damage);
        }
        let (mut found, mut at) = (vec![0xEE; f.k], vec![0xEEEE; f.m]);
        assert_eq!(decode(f, &word, &mut found, &mut at), 0, "{f:?} {starts:?}");
        assert_eq!((&found, &at[..]), (&message, starts));
        let rank = rank(f, starts);
        assert_eq!(read(f, &word).expect("an accepted word").rank, rank);
    }
}

#[test]
fn words() {
    for n in 3..=45 {
        for (q, m) in [
            (2, 1),
            (3, 1),
            (16, 2),
            (256, 2),
            (256, 3),
            (7, 3),
            (2, 4),
            (256, 4),
        ] {
            for f in (1..=n).filter_map(|b| Figures::larsson(n, q, m, b).ok()) {
                // Every placement of larger figures would take long.
                let step = f.t.div_ceil(500) as usize;
                (0..f.t)
                    .step_by(step)
                    .for_each(|rank| there_and_back(&f, &unrank(&f, rank)[..f.m]));
            }
        }
    }
}

#[test]
fn words_of_the_largest_figures() {
    for (n, m, b) in [
        (4096, 1, 2045),
        (4096, 6, 1),
        (4096, 6, 333),
        (1999, 7, 39),
        (999, 8, 15),
        (888, 8, 48),
    ] {
        let f = figures(n, 256, m, b);
        for rank in [0, 1, f.t / 2, f.t / 3 * 2, f.t - 2, f.t - 1] {
            there_and_back(&f, &unrank(&f, rank)[..f.m]);
        }
    }
}

#[test]
fn every_word_of_small_figures() {
    let small = [
        (3, 2, 3, 1),
        (4, 2, 4, 1),
        (6, 2, 3, 2),
        (3, 3, 1, 1),
        (3, 4, 1, 1),
        (4, 4, 1, 1),
        (4, 5, 1, 1),
        (5, 4, 1, 2),
        (6, 3, 1, 1),
        (7, 3, 1, 1),
        (8, 3, 1, 2),
        (5, 10, 2, 1),
    ];
    let answers = small.map(|(n, q, m, b)| exhaustive::every_word(&figures(n, q, m, b)));
    let answers: BTreeSet<u8> = answers.into_iter().flatten().collect();
    assert_eq!(answers, [0, 4, 8, 9, 19, 21].into());
}

/// Five sub-blocks of two symbols, with gaps of 3, 4, 4 and 4 between them.
fn five() -> Figures {
    let f = figures(25, 16, 2, 3);
    assert_eq!((f.t, f.r, f.k), (210, 2, 13));
    assert_eq!(sub_blocks(&f), [0, 5, 11, 17, 23]);
    f
}

fn answer(f: &Figures, word: &[u8]) -> u8 {
    let (mut message, mut starts) = (vec![0xEE; f.k], vec![0xEEEE; f.m]);
    let answer = decode(f, word, &mut message, &mut starts);
    let kept = message.iter().all(|&symbol| symbol == 0xEE);
    assert!(answer == 0 || kept && starts.iter().all(|&start| start == 0xEEEE));
    answer
}

/// A word whose five sub-blocks hold these values.
fn holding(values: [u8; 5]) -> Vec<u8> {
    let mut word = vec![9; 25];
    for (at, value) in [0, 5, 11, 17, 23].into_iter().zip(values) {
        (word[at], word[at + 1]) = (value >> 4, value & 15);
    }
    word
}

/// Three of five decide, two don't; and the three must be the first that no run touches.
#[test]
fn near_majorities() {
    let f = five();
    // Runs at 4 and 10 touch the second and the third sub-block.
    let rank = rank(&f, &[4, 10]) as u8;
    let other = rank + 1;
    assert_eq!(untouched(&f, &[4, 10]), [0, 17, 23]);
    for bearing in 0..1 << 5 {
        let values = [0, 1, 2, 3, 4].map(|i| {
            if bearing >> i & 1 == 1 {
                rank
            } else {
                other + i
            }
        });
        let wanted = match bearing {
            // Whatever the two that the runs touch hold.
            _ if bearing & 0b11001 == 0b11001 => 0,
            _ if u32::count_ones(bearing) >= 3 => 9,
            _ => 21,
        };
        assert_eq!(answer(&f, &holding(values)), wanted, "{bearing:05b}");
    }
}

/// Where fewer sub-blocks are touched, the last ones carry message, which may say anything.
#[test]
fn sub_blocks_past_the_bearing_ones() {
    let f = five();
    // No sub-block is touched: the first three tell, two carry message.
    let starts = [2, 7];
    let rank = rank(&f, &starts) as u8;
    assert_eq!(untouched(&f, &starts).len(), 5);
    for (values, wanted) in [
        ([rank, rank, rank, 1, 2], 0),
        ([rank, rank, rank, rank, 2], 0),
        ([rank, rank, 1, rank, 2], 9),
        ([1, rank, rank, rank, rank], 9),
        ([rank, rank, 1, 1, 2], 21),
        ([rank, 1, rank, 1, 1], 9),
    ] {
        assert_eq!(answer(&f, &holding(values)), wanted, "{values:?}");
    }
}

#[test]
fn values_past_the_last_rank() {
    let f = five();
    for value in 0..=255 {
        let wanted = if value as u64 >= f.t { 8 } else { 0 };
        assert_eq!(answer(&f, &holding([value; 5])), wanted);
        let (other, third) = (value ^ 1, value ^ 2);
        let divided = holding([other, value, other, value, third]);
        assert_eq!(answer(&f, &divided), 21);
    }
    // Beyond 64 bits: 256^8 values.
    let f = figures(888, 256, 8, 2);
    let mut word = vec![0; 888];
    for at in sub_blocks(&f) {
        word[at..at + 8].fill(255);
    }
    assert_eq!(answer(&f, &word), 8);
}

/// A silent cell: in a run no matter, in a bearing sub-block 21 or 9, in the message 19, behind all else.
#[test]
fn silent_cells() {
    let f = five();
    let starts = [4, 10];
    let mut word = vec![0; 25];
    assert_eq!(encode(&f, &starts, &[7; 13], &mut word), 0);
    let changed = |cells: &[usize], value: u8| {
        let mut word = word.clone();
        cells.iter().for_each(|&cell| word[cell] = value);
        answer(&f, &word)
    };
    for cell in 0..25 {
        let wanted = match cell {
            4..=6 | 10..=12 => 0,
            0 | 1 | 17 | 18 | 23 | 24 => 21,
            _ => 19,
        };
        assert_eq!(changed(&[cell], 16), wanted, "cell {cell}");
        assert_eq!(changed(&[cell], 17), 4);
    }
    assert_eq!(changed(&[4, 5, 6, 10, 11, 12], 16), 0);
    // The touched ones hold the value too: one bearing sub-block may be silent, and then it is 9, ahead of 19.
    let rank = rank(&f, &starts) as u8;
    let mut found = holding([rank; 5]);
    assert_eq!(answer(&f, &found), 0);
    found[24] = 16;
    assert_eq!(answer(&f, &found), 9);
    found[2] = 16;
    assert_eq!(answer(&f, &found), 9);
    // 8 goes before 19 and 21 before both.
    let mut found = holding([255; 5]);
    found[2] = 16;
    assert_eq!(answer(&f, &found), 8);
    (found[0], found[5], found[11]) = (16, 16, 16);
    assert_eq!(answer(&f, &found), 21);
}

/// The writer's order: 3 5 4.
#[test]
fn refused_writing() {
    let f = five();
    let refused = |starts: &[u16], message: &[u8], len: usize| {
        let mut word = vec![0xEE; len];
        let answer = encode(&f, starts, message, &mut word);
        assert!(answer == 0 || word.iter().all(|&cell| cell == 0xEE));
        answer
    };
    for starts in [&[][..], &[4], &[4, 10, 15]] {
        assert_eq!(refused(starts, &[16; 13], 25), 3);
    }
    assert_eq!(refused(&[99, 0], &[16; 12], 25), 3);
    assert_eq!(refused(&[99, 0], &[16; 13], 24), 3);
    for starts in [[10, 4], [4, 6], [4, 23], [4, u16::MAX]] {
        assert_eq!(refused(&starts, &[16; 13], 25), 5);
    }
    assert_eq!(refused(&[4, 22], &[16; 13], 25), 4);
    assert_eq!(refused(&[4, 22], &[15; 13], 25), 0);
}

#[test]
fn coverings() {
    let f = five();
    let covered = |worn: &[usize]| {
        let mut map = [0; 25];
        worn.iter().for_each(|&cell| map[cell] = 1);
        let starts = cover(&f, &map)?;
        Ok::<_, u8>([starts[0], starts[1]])
    };
    assert_eq!(covered(&[]), Ok([0, 3]));
    assert_eq!(covered(&[24]), Ok([0, 22]));
    assert_eq!(covered(&[5, 8]), Ok([3, 6]));
    assert_eq!(covered(&[0, 3, 6]), Err(6));
    assert_eq!(cover(&f, &[2; 24]), Err(3));
    assert_eq!(cover(&f, &[2; 25]), Err(4));
}

/// Orders of the job calls: 10 for K, 3, 5 or what the word reader says, 10 for the spelling, then the book.
#[test]
fn jobs() {
    let f = five();
    assert_eq!(payload_len(&f), 6);
    let (empty, mut book) = (Book::default(), Book::default());
    assert_eq!(book.open(7), 0);
    let payload = *b"\0\0\0\x07AB";
    let mut word = [0xEE; 25];
    assert_eq!(write_job(&f, &book, &[4], &payload, &mut word), 3);
    assert_eq!(write_job(&f, &empty, &[4, 5], &[0; 6], &mut word), 5);
    assert_eq!(write_job(&f, &empty, &[4, 10], &[0; 6], &mut word), 17);
    assert_eq!(write_job(&f, &empty, &[4, 10], &payload, &mut word), 14);
    assert_eq!(word, [0xEE; 25]);
    assert_eq!(write_job(&f, &book, &[4, 10], &payload, &mut word), 0);
    word[4..7].fill(16);
    word[10..13].fill(15);
    let read = |book: &Book, word: &[u8]| {
        let mut read = [0xEE; 6];
        let answer = read_job(&f, book, word, &mut read);
        assert_eq!(read, if answer == 0 { payload } else { [0xEE; 6] });
        answer
    };
    assert_eq!(read(&book, &word), 0);
    assert_eq!(read(&empty, &word), 14);
    assert_eq!(read(&empty, &word[1..]), 3);
    // The last message symbol is left over.
    word[22] = 1;
    assert_eq!(read(&empty, &word), 10);
    word[21] = 16;
    assert_eq!(read(&empty, &word), 19);
    word[24] = 16;
    assert_eq!(read(&empty, &word), 21);
    word[0] = 17;
    assert_eq!(read(&empty, &word), 4);
    let short = figures(11, 256, 2, 2);
    assert_eq!(payload_len(&short), 4);
    assert_eq!(read_job(&short, &empty, &[], &mut []), 10);
    assert_eq!(write_job(&short, &empty, &[], &[], &mut []), 10);
}
