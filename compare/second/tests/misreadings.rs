//! Document 01's list of misreadings: each test has a case in which the misreading would give something else.

use second::blocks::{burst_blocks, index_blocks, pattern, Layout};
use second::codec::encode;
use second::Figures;

fn figures(n: u32, q: u32, m: u32, b: u32) -> Figures {
    Figures::new(n, q, m, b).expect("these figures fit")
}

fn bursts(f: &Figures, starts: &[u16]) -> u64 {
    burst_blocks(f, &Layout::new(f), starts)
}

#[test]
fn the_block_where_a_run_ends_is_b() {
    let f = figures(30, 2, 1, 3);
    assert_eq!(bursts(&f, &[7]), 0b001);
    assert_eq!(bursts(&f, &[8]), 0b010);
}

#[test]
fn a_run_across_a_parts_edge_isnt_wrapped() {
    // Blocks of 10, parts of 20: a run from 18 ends in block 2, in the next part.
    let f = figures(60, 4, 2, 4);
    assert_eq!(bursts(&f, &[18, 40]), 0b010100);
    assert_eq!(index_blocks(&f, 0b010100), 0b000011);
}

#[test]
fn only_the_first_and_last_part_give_part_0() {
    let f = figures(480, 3, 4, 3);
    let without = |parts: &[usize]| {
        let part = |i: usize| 0b1111u64 << (4 * i);
        pattern(
            &f,
            (0..4)
                .filter(|i| !parts.contains(i))
                .fold(0, |set, i| set | part(i)),
        )
    };
    assert_eq!(without(&[0, 3]), Some(0b1111));
    assert_eq!(without(&[0, 2]), None);
    assert_eq!(without(&[1, 3]), None);
    assert_eq!(without(&[1, 2]), Some(0b1111 << 8));
}

#[test]
fn a_spare_b_block_starts_with_message() {
    // Both runs end in block 1, so block 0 is B as the leftmost spare one.
    let f = figures(60, 4, 2, 4);
    assert_eq!(bursts(&f, &[10, 15]), 0b11);
    let mut word = [0; 60];
    assert_eq!(encode(&f, &[10, 15], &[3; 44], &mut word), 0);
    assert_eq!(word[0], 3);
}

#[test]
fn shorter_parts_and_blocks_come_first() {
    let begins = |f: &Figures| Layout::new(f).begin[..=f.blocks()].to_vec();
    assert_eq!(begins(&figures(31, 2, 1, 3)), [0, 10, 20, 31]);
    assert_eq!(begins(&figures(32, 2, 1, 3)), [0, 10, 21, 32]);
    assert_eq!(begins(&figures(62, 4, 2, 4)), [0, 10, 20, 30, 41, 51, 62]);
}
