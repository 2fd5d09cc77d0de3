//! Document 02's change request 11: n to 4096, m to 8, and figures with more than 9223372036854775807 placements don't fit.

use second::blocks::{burst_blocks, index_blocks, Layout};
use second::choose::{choose, rank, unrank, MAX_COUNT};
use second::codec::{decode, encode};
use second::Figures;

/// T, r and k of figures with q 256, or the refusal.
fn figures(n: u32, m: u32, b: u32) -> Result<(u64, usize, usize), u8> {
    Figures::new(n, 256, m, b).map(|f| (f.t, f.r, f.k))
}

#[test]
fn the_largest_that_fit() {
    assert_eq!(figures(4096, 6, 1), Ok((6534856347522607104, 1, 4054)));
    assert_eq!(figures(4096, 6, 112), Ok((2251811127310162425, 1, 3388)));
    assert_eq!(figures(4096, 6, 113), Err(2));
    assert_eq!(figures(1999, 7, 39), Ok((9202167919706100768, 1, 1677)));
    assert_eq!(figures(999, 8, 15), Ok((9207044098280898870, 0, 823)));
    assert_eq!(figures(64, 8, 1), Ok((4426165368, 0, 0)));
    assert_eq!(figures(63, 8, 1), Err(2));
}

#[test]
fn more_placements_than_the_limit() {
    assert_eq!(figures(1733, 7, 1), Ok((9202167919706100768, 1, 1677)));
    assert_eq!(figures(1734, 7, 1), Err(2));
    assert_eq!(figures(887, 8, 1), Ok((9207044098280898870, 0, 823)));
    // A longer run has fewer placements, and fits where a shorter one doesn't.
    assert_eq!(figures(888, 8, 1), Err(2));
    assert_eq!(figures(888, 8, 2), Ok((8639387795609084250, 0, 816)));
    for (longest, m) in [(1999, 7), (999, 8)] {
        let fits = |n: u32| (1..=n).any(|b| figures(n, m, b).is_ok());
        assert!(fits(longest));
        assert!(!(longest + 1..=4096).any(fits));
    }
}

#[test]
fn out_of_range() {
    assert!(figures(4096, 1, 1).is_ok());
    assert_eq!(figures(4097, 1, 1), Err(1));
    assert_eq!(figures(4096, 9, 1), Err(1));
    // A figure out of range goes before one that doesn't fit.
    assert_eq!(figures(4097, 8, 4096), Err(1));
    assert_eq!(figures(4096, 9, 4096), Err(1));
}

/// Against the usual product, in 128 bits, which hold every step of it.
#[test]
fn ways_to_choose() {
    for of in 0..=4096 {
        let mut ways = 1u128;
        for things in 1..=8 {
            // Choosing one thing more: the product is a multiple of `things`, and 0 once the things run out.
            ways = ways * (of as u128 + 1).saturating_sub(things as u128) / things as u128;
            let wanted = (ways <= MAX_COUNT as u128).then_some(ways as u64);
            assert_eq!(choose(of, things), wanted, "{things} out of {of}");
        }
    }
    assert!(choose(1733, 7).is_some() && choose(1734, 7).is_none());
    assert!(choose(887, 8).is_some() && choose(888, 8).is_none());
    assert_eq!(choose(4096, 8), None);
}

/// Each value from T on is refused, up to the largest that the I-blocks spell, of 112 bits.
#[test]
fn values_past_the_last_rank() {
    let f = Figures::new(1999, 256, 7, 39).expect("these figures fit");
    let layout = Layout::new(&f);
    let starts = unrank(&f, f.t / 2);
    let index = index_blocks(&f, burst_blocks(&f, &layout, &starts[..f.m]));
    let message = vec![9; f.k];
    let mut word = vec![0; f.n];
    assert_eq!(encode(&f, &starts[..f.m], &message, &mut word), 0);
    let mut spelled = |value: u128| {
        let mut left = value;
        for block in (0..f.blocks())
            .rev()
            .filter(|block| index >> block & 1 == 1)
        {
            let begin = layout.begin[block] as usize;
            word[begin + 1] = (left % 256) as u8;
            word[begin] = (left / 256 % 255) as u8 + 1;
            left /= 256 * 255;
        }
        assert_eq!(left, 0);
        decode(&f, &word, &mut vec![0; f.k], &mut vec![0; f.m])
    };
    let rank = rank(&f, &starts[..f.m]) as u128;
    assert_eq!(rank, f.t as u128 / 2);
    assert_eq!(spelled(rank), 0);
    for high in [1, 2, 255, 1 << 32] {
        assert_eq!(spelled((high << 64) + rank), 8);
    }
    let largest = (255u128 * 256).pow(7) - 1;
    for value in [f.t as u128, MAX_COUNT as u128, 1 << 63, 1 << 64, largest] {
        assert_eq!(spelled(value), 8);
    }
}
