//! The rules checked against their plain wording: ranks, coverings and reading back, exhaustively for small figures.

use second::blocks::Layout;
use second::choose::{rank, unrank};
use second::codec::{decode, encode, placed};
use second::cover::cover;
use second::figures::Code;
use second::Figures;

/// Calls `each` with every placement of the figures.
fn placements(f: &Figures, each: &mut impl FnMut(&[u16])) {
    fn go(f: &Figures, starts: &mut Vec<u16>, each: &mut impl FnMut(&[u16])) {
        if starts.len() == f.m {
            return each(starts);
        }
        let from = starts.last().map_or(0, |&start| start as usize + f.b);
        for start in from..=f.n.saturating_sub(f.b) {
            starts.push(start as u16);
            go(f, starts, each);
            starts.pop();
        }
    }
    go(f, &mut Vec::new(), each);
}

/// Every figure that fits up to a word length.
fn fitting(longest: u32, each: &mut impl FnMut(Figures)) {
    for n in 3..=longest {
        for q in [2, 3, 4, 7, 16, 256] {
            for m in 1..=8 {
                (1..=n)
                    .filter_map(|b| Figures::new(n, q, m, b).ok())
                    .for_each(&mut *each);
            }
        }
    }
}

#[test]
fn ranks_number_the_placements() {
    fitting(27, &mut |f| {
        let mut seen = vec![false; f.t as usize];
        placements(&f, &mut |starts| {
            assert!(placed(&f, starts));
            let rank = rank(&f, starts);
            assert!(!std::mem::replace(&mut seen[rank as usize], true));
            assert_eq!(unrank(&f, rank)[..f.m], *starts);
        });
        assert!(seen.iter().all(|&seen| seen));
    });
}

/// The covering as the paper words it: of all placements that cover, the one of least rank.
fn covering_by_search(f: &Figures, map: &[u8]) -> Result<Vec<u16>, u8> {
    let mut best: Option<(u64, Vec<u16>)> = None;
    placements(f, &mut |starts| {
        let inside = |cell: usize| {
            starts
                .iter()
                .any(|&s| (s as usize..s as usize + f.b).contains(&cell))
        };
        let covers = (0..f.n).all(|cell| map[cell] == 0 || inside(cell));
        let rank = rank(f, starts);
        if covers && best.as_ref().is_none_or(|(least, _)| rank < *least) {
            best = Some((rank, starts.to_vec()));
        }
    });
    best.map(|(_, starts)| starts).ok_or(6)
}

fn same_covering(f: &Figures, map: &[u8]) {
    let quick = cover(f, map).map(|starts| starts[..f.m].to_vec());
    assert_eq!(quick, covering_by_search(f, map), "{f:?} {map:?}");
}

#[test]
fn coverings_of_every_map() {
    // Figures that needn't fit: the planner looks at n, m and b alone, and fitting ones are too long for every map.
    for n in 3..=12 {
        for m in 1..=4 {
            for b in (1..=4).filter(|b| m * b <= n) {
                let t = second::choose::choose(n - m * b + m, m).expect("a small count");
                let f = Figures {
                    code: Code::ConstructionA,
                    n,
                    q: 2,
                    m,
                    b,
                    p: 3,
                    r: 0,
                    k: 0,
                    t,
                };
                for bits in 0..1u32 << n {
                    let map: Vec<u8> = (0..n).map(|cell| (bits >> cell & 1) as u8).collect();
                    same_covering(&f, &map);
                }
            }
        }
    }
}

#[test]
fn words_read_back_with_every_damage_value() {
    fitting(36, &mut |f| {
        let mut count = 0;
        placements(&f, &mut |starts| {
            count += 1;
            // Two fillings show a misplaced symbol; every placement of larger figures would take long.
            if f.t < 3000 || count % 97 == 0 {
                read_back(&f, starts);
            }
        });
        assert_eq!(count, f.t);
    });
}

fn read_back(f: &Figures, starts: &[u16]) {
    let top = (f.q - 1) as u8;
    for step in [1, 2] {
        let message: Vec<u8> = (0..f.k).map(|i| (i * step % f.q as usize) as u8).collect();
        let mut word = vec![0xEE; f.n];
        assert_eq!(encode(f, starts, &message, &mut word), 0);
        // q, where it is a byte, is a silent cell.
        for damage in [0, 1, top, f.q.min(255) as u8] {
            for &start in starts {
                word[start as usize..start as usize + f.b].fill(damage);
            }
            let (mut found, mut at) = (vec![0xEE; f.k], vec![0; f.m]);
            assert_eq!(decode(f, &word, &mut found, &mut at), 0, "{f:?} {starts:?}");
            assert_eq!((&found, &at[..]), (&message, starts));
        }
    }
}

#[test]
fn some_ranks_of_the_largest_figures_read_back() {
    for (n, m, b) in [
        (1024, 6, 20),
        (4096, 6, 1),
        (4096, 6, 112),
        (1999, 7, 39),
        (999, 8, 15),
        (64, 8, 1),
    ] {
        let f = Figures::new(n, 256, m, b).expect("these figures fit");
        for rank in [0, 1, f.t / 2, f.t / 3 * 2, f.t - 2, f.t - 1] {
            read_back(&f, &unrank(&f, rank)[..f.m]);
        }
    }
}

/// Each spelled value beyond T is refused, also where it needs more than 64 bits.
#[test]
fn values_past_the_last_rank() {
    let f = Figures::new(1024, 256, 6, 10).expect("these figures fit");
    assert_eq!(f.r, 1);
    let mut word = vec![0; f.n];
    assert_eq!(encode(&f, &unrank(&f, 0)[..6], &vec![9; f.k], &mut word), 0);
    let layout = Layout::new(&f);
    let mut spelled = |value: u128| {
        let mut left = value;
        // All six runs end in blocks 0 to 5, so part 1 has the I-blocks.
        for block in (6..12).rev() {
            let begin = layout.begin[block] as usize;
            word[begin + 1] = (left % 256) as u8;
            word[begin] = (left / 256 % 255) as u8 + 1;
            left /= 256 * 255;
        }
        assert_eq!(left, 0);
        decode(&f, &word, &mut vec![0; f.k], &mut [0; 6])
    };
    assert_eq!(spelled(0), 0);
    assert_eq!(spelled(f.t as u128), 8);
    assert_eq!(spelled(1 << 64), 8);
    assert_eq!(spelled((1 << 64) + 1), 8);
    assert_eq!(spelled((255u128 * 256).pow(6) - 1), 8);
}
