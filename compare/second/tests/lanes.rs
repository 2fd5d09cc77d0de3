//! Document 02's change request 5: strips side by side.

use second::codec::{decode, encode};
use second::cover::cover;
use second::figures::Code;
use second::lanes::{deinterleave, interleave, MAX_DEPTH};
use second::Figures;

fn figures(n: u32, q: u32, m: u32, b: u32) -> Figures {
    Figures::new(n, q, m, b).expect("these figures fit")
}

/// Where each stretch begins, and its length.
type Stretches = Vec<(usize, usize)>;

/// Calls `each` with every list of at most `most` disjoint stretches of a strip, none longer than `longest`.
fn stretches(cells: usize, most: usize, longest: usize, each: &mut impl FnMut(&Stretches)) {
    fn go(
        cells: usize,
        most: usize,
        longest: usize,
        so_far: &mut Stretches,
        each: &mut impl FnMut(&Stretches),
    ) {
        each(so_far);
        if so_far.len() == most {
            return;
        }
        let from = so_far.last().map_or(0, |&(start, len)| start + len);
        for start in from..cells {
            for len in 1..=longest.min(cells - start) {
                so_far.push((start, len));
                go(cells, most, longest, so_far, each);
                so_far.pop();
            }
        }
    }
    go(cells, most, longest, &mut Vec::new(), each);
}

/// The map of one word of a strip that is worn in these stretches.
fn map(n: usize, depth: usize, lane: usize, stretches: &Stretches) -> Vec<u8> {
    let worn = |cell: usize| {
        let inside = |&(start, len): &(usize, usize)| (start..start + len).contains(&cell);
        stretches.iter().any(inside) as u8
    };
    (0..n).map(|i| worn(i * depth + lane)).collect()
}

/// Calls `each` with a depth and figures that needn't fit, for the planner looks at n, m and b alone.
fn small(each: &mut impl FnMut(usize, Figures)) {
    for (depth, n) in (1..=6).flat_map(|depth| (3..=7).map(move |n| (depth, n))) {
        for (m, b) in [
            (1, 1),
            (1, 2),
            (1, 3),
            (2, 1),
            (2, 2),
            (2, 3),
            (3, 1),
            (3, 2),
        ] {
            // More cells with three stretches would take long.
            if m * b <= n && (m < 3 || depth * n <= 18) {
                let (q, p, r, k, t) = (2, 3, 0, 0, 1);
                each(
                    depth,
                    Figures {
                        code: Code::ConstructionA,
                        n,
                        q,
                        m,
                        b,
                        p,
                        r,
                        k,
                        t,
                    },
                );
            }
        }
    }
}

#[test]
fn each_words_map_can_be_covered() {
    small(&mut |depth, f| {
        stretches(depth * f.n, f.m, depth * f.b, &mut |stretches| {
            for lane in 0..depth {
                let map = map(f.n, depth, lane, stretches);
                assert!(cover(&f, &map).is_ok(), "{f:?} {depth} {stretches:?}");
            }
        });
    });
}

/// One cell more than d * b can be too long.
#[test]
fn a_longer_stretch() {
    for depth in 1..=MAX_DEPTH as usize {
        let f = figures(30, 2, 1, 3);
        let covered = |len: usize| {
            let map = map(30, depth, 0, &vec![(depth, len)]);
            cover(&f, &map).map(|starts| starts[0])
        };
        assert_eq!(covered(3 * depth), Ok(1));
        assert_eq!(covered(3 * depth + 1), Err(6));
    }
}

/// The words of a strip that is worn in these stretches, each written on its cover, read back after damage there.
fn read_back(f: &Figures, depth: usize, stretches: &Stretches) {
    let message = |lane: usize| -> Vec<u8> {
        let symbol = |i: usize| ((i * 7 + lane * 3 + 1) % f.q as usize) as u8;
        (0..f.k).map(symbol).collect()
    };
    let cover = |lane: usize| {
        let map = map(f.n, depth, lane, stretches);
        cover(f, &map).expect("the map can be covered")
    };
    let mut words = vec![0; depth * f.n];
    for (lane, word) in words.chunks_exact_mut(f.n).enumerate() {
        assert_eq!(encode(f, &cover(lane)[..f.m], &message(lane), word), 0);
    }
    let mut strip = vec![0xEE; depth * f.n];
    assert_eq!(interleave(f, depth as u32, &words, &mut strip), 0);
    // q, where it is a byte, is a silent cell.
    for damage in [0, 1, (f.q - 1) as u8, f.q.min(255) as u8] {
        for &(start, len) in stretches {
            strip[start..start + len].fill(damage);
        }
        let mut found = vec![0xEE; depth * f.n];
        assert_eq!(deinterleave(f, depth as u32, &strip, &mut found), 0);
        for (lane, word) in found.chunks_exact(f.n).enumerate() {
            let (mut read, mut starts) = (vec![0xEE; f.k], vec![0; f.m]);
            assert_eq!(decode(f, word, &mut read, &mut starts), 0);
            assert_eq!((read, &starts[..]), (message(lane), &cover(lane)[..f.m]));
        }
    }
}

#[test]
fn words_read_back_at_every_depth() {
    for f in [
        Figures::new(15, 256, 1, 2),
        Figures::construction_b(15, 256, 5),
        Figures::larsson(15, 256, 1, 7),
    ] {
        let f = f.expect("these figures fit");
        for depth in 1..=MAX_DEPTH as usize {
            for start in 0..depth * (f.n - f.b) {
                read_back(&f, depth, &vec![(start, depth * f.b)]);
            }
        }
    }
    for f in [Figures::new(60, 4, 2, 4), Figures::larsson(60, 4, 2, 8)] {
        let f = f.expect("these figures fit");
        for depth in 1..=MAX_DEPTH as usize {
            let (cells, longest) = (depth * f.n, depth * f.b);
            for first in (0..cells - 2 * longest).step_by(7) {
                for second in (first + longest..cells - longest).step_by(61) {
                    read_back(&f, depth, &vec![(first, longest), (second, longest)]);
                }
            }
        }
    }
}

#[test]
fn cells_of_a_strip() {
    let f = figures(3, 4, 1, 1);
    let mut strip = [0xEE; 6];
    assert_eq!(interleave(&f, 2, &[0, 1, 2, 3, 0, 1], &mut strip), 0);
    assert_eq!(strip, [0, 3, 1, 0, 2, 1]);
    let mut strip = [0xEE; 9];
    assert_eq!(
        interleave(&f, 3, &[0, 1, 2, 3, 0, 1, 2, 2, 3], &mut strip),
        0
    );
    assert_eq!(strip, [0, 3, 2, 1, 0, 2, 2, 1, 3]);
}

/// Cell t is symbol t / d of word t mod d; depth 1 is a copy; taking apart gives back the words.
#[test]
fn every_cell_at_every_depth() {
    for n in [3, 16, 17, 4096] {
        let f = figures(n as u32, 251, 1, 1);
        for depth in 1..=MAX_DEPTH as usize {
            let words: Vec<u8> = (0..depth * n).map(|i| (i % 251) as u8).collect();
            let mut strip = vec![0xEE; depth * n];
            assert_eq!(interleave(&f, depth as u32, &words, &mut strip), 0);
            for (t, &cell) in strip.iter().enumerate() {
                assert_eq!(cell, words[t % depth * n + t / depth]);
            }
            assert!(depth > 1 || strip == words);
            let mut back = vec![0xEE; depth * n];
            assert_eq!(deinterleave(&f, depth as u32, &strip, &mut back), 0);
            assert_eq!(back, words);
        }
    }
}

#[test]
fn refusals() {
    refused(Figures::new(3, 4, 1, 1));
    refused(Figures::construction_b(3, 4, 1));
    refused(Figures::larsson(3, 4, 1, 1));
}

fn refused(f: Result<Figures, u8>) {
    let f = f.expect("these figures fit");
    for call in [interleave, deinterleave] {
        let answer = |depth: u32, from: &[u8], to: usize| {
            let mut out = vec![0xEE; to];
            let answer = call(&f, depth, from, &mut out);
            assert!(answer == 0 || out.iter().all(|&byte| byte == 0xEE));
            answer
        };
        assert_eq!(answer(2, &[3; 6], 6), 0);
        // 18, then 3, then 4.
        for depth in [
            0,
            17,
            18,
            256,
            257,
            1 << 16,
            (1 << 16) + 2,
            1 << 31,
            u32::MAX,
        ] {
            assert_eq!(answer(depth, &[9; 6], 6), 18);
            assert_eq!(answer(depth, &[9; 7], 0), 18);
        }
        for (from, to) in [(5, 6), (7, 6), (6, 5), (6, 7), (3, 3), (0, 0), (6, 0)] {
            assert_eq!(answer(2, &vec![9; from], to), 3);
        }
        for at in 0..6 {
            let mut from = [3; 6];
            from[at] = 5;
            assert_eq!(answer(2, &from, 6), 4);
        }
        assert_eq!(answer(16, &[0; 48], 48), 0);
    }
}

/// A silent cell is taken apart, and never laid.
#[test]
fn silent_cells() {
    let f = figures(3, 4, 1, 1);
    let mut out = [0xEE; 6];
    assert_eq!(interleave(&f, 2, &[0, 1, 4, 3, 0, 1], &mut out), 4);
    assert_eq!(out, [0xEE; 6]);
    assert_eq!(deinterleave(&f, 2, &[4, 3, 1, 0, 2, 4], &mut out), 0);
    assert_eq!(out, [4, 1, 2, 3, 0, 4]);
}
