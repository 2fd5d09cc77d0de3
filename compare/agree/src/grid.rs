//! Figures on a grid with every boundary, through each call that takes figures.

use burgzemi::{Long, Ranked};
use second::choose::choose;
use second::figures::{Code, MAX_N, MAX_RUNS};
use second::Figures;

use crate::judge::Judge;
use crate::sides::{Numbers, PrescriptionNumbers};
use crate::ways::WAYS;

const EDGES: [u32; 4] = [65535, 65536, 1 << 31, u32::MAX];

/// Word lengths around each boundary. Those up to 1026, with m to 6, were the grid before change request 11: what was
/// served within the former limits, n to 1024 and m to 6, still is. (`former` has the words themselves.)
fn lengths() -> Vec<u32> {
    let mut lengths: Vec<u32> = (0..=48).collect();
    for edge in [
        54, 60, 72, 90, 96, 108, 144, 150, 180, 216, 256, 300, 360, 512, 720, 900, 1024,
    ] {
        lengths.extend([edge - 1, edge, edge + 1, edge + 2]);
    }
    lengths.extend([1000, 1008, 1020, 1021, 1022]);
    // The shortest with 7 runs and with 8; more than 1024; the longest of all.
    lengths.extend([
        49, 50, 63, 64, 65, 98, 128, 2048, 3072, 4094, 4095, 4096, 4097,
    ]);
    // n - m * b + m is 1733 or 1734 for 7 runs, 887 or 888 for 8: T is just within the limit, and just above it.
    for b in [1, 2, 3, 38, 39, 40] {
        lengths.extend([1733, 1734].map(|things| things + 7 * (b - 1)));
    }
    for b in [1, 2, 3, 14, 15, 16] {
        lengths.extend([887, 888].map(|things| things + 8 * (b - 1)));
    }
    lengths.extend(EDGES);
    lengths.sort_unstable();
    lengths.dedup();
    lengths
}

fn alphabets() -> Vec<u32> {
    let mut alphabets = vec![
        0, 1, 2, 3, 4, 5, 6, 15, 16, 17, 128, 254, 255, 256, 257, 258, 512,
    ];
    alphabets.extend(EDGES);
    alphabets
}

/// The least burst length for which T is within its limit, where figures in range have one.
fn least_counted(n: u32, m: u32) -> Option<u32> {
    let (n, m) = (n as usize, m as usize);
    if n > MAX_N || !(1..=MAX_RUNS).contains(&m) {
        return None;
    }
    let counted = |&b: &usize| choose(n - m * b + m, m).is_some();
    (1..=n / m).find(counted).map(|b| b as u32)
}

/// Burst lengths around the largest that fits, around the least whose T is within its limit, around n / m, and so large
/// that products wrap.
fn bursts(n: u32, m: u32, fits: impl Fn(u32) -> bool) -> Vec<u32> {
    let mut bursts = vec![0, 1, 2, 3];
    // Where figures fit, 3 * b is at most n, or 2 * (b - 1) by the Larsson code.
    let most = n.min(MAX_N as u32) / 2 + 1;
    if let Some(largest) = (1..=most).rev().find(|&b| fits(b)) {
        bursts.extend([largest - 1, largest, largest + 1]);
    }
    if let Some(least) = least_counted(n, m) {
        bursts.extend([least - 1, least, least + 1]);
    }
    let share = n / m.max(1);
    bursts.extend([share.saturating_sub(1), share, share.saturating_add(1)]);
    let wraps = ((1u64 << 32) / m.max(1) as u64).min(u32::MAX as u64 - 1) as u32;
    bursts.extend([wraps - 1, wraps, wraps + 1]);
    bursts.extend(EDGES);
    bursts.sort_unstable();
    bursts.dedup();
    bursts
}

/// Calls `visit` with all of Construction B's figures of the grid.
pub fn each_long(mut visit: impl FnMut(Long)) {
    for n in lengths() {
        for q in alphabets() {
            let part = n / 3;
            let mut bursts = vec![0, 1, 2, 3, part.saturating_sub(1), part, part + 1, n];
            bursts.extend(EDGES);
            bursts.sort_unstable();
            bursts.dedup();
            for b in bursts {
                visit((n, q, b));
            }
        }
    }
}

/// Calls `visit` with all figures n, q, m and b of the grid, b around what `fits` tells of.
fn each_of(fits: fn(Ranked) -> bool, mut visit: impl FnMut(Ranked)) {
    for n in lengths() {
        for q in alphabets() {
            for m in (0..=9).chain(EDGES) {
                for b in bursts(n, m, |b| fits((n, q, m, b))) {
                    visit((n, q, m, b));
                }
            }
        }
    }
}

/// Calls `visit` with all of Construction A's figures of the grid.
pub fn each(visit: impl FnMut(Ranked)) {
    each_of(|(n, q, m, b)| Figures::new(n, q, m, b).is_ok(), visit);
}

/// The same of the Larsson code's.
fn each_larsson(visit: impl FnMut(Ranked)) {
    each_of(|(n, q, m, b)| Figures::larsson(n, q, m, b).is_ok(), visit);
}

/// Outside the rules.
const NONE: PrescriptionNumbers = ((0, 0.0, 0.0, 0), (0, 0.0, 0.0, 0), 0.0);

/// Makes every call with the figures alone: refusals 1, 2 and 10, and 18 or 3 for what fits.
pub fn run(judge: &mut Judge) {
    let mut depths = (0..=17).cycle();
    let mut visit = |f: Numbers| {
        figures_alone(judge, f, depths.next().unwrap_or(0));
        if f.code() != Code::ConstructionB {
            moves_alone(judge, f.ranked());
        }
    };
    each(|f| visit(Numbers::Ranked(f)));
    each_long(|f| visit(Numbers::Long(f)));
    each_larsson(|f| visit(Numbers::Larsson(f)));
}

/// The moves, whose figures both codes take.
fn moves_alone(judge: &mut Judge, f: Ranked) {
    for way in WAYS {
        judge.move_job(way, f, &[], &[], 0);
    }
}

fn figures_alone(judge: &mut Judge, f: Numbers, depth: u32) {
    for room in [4, 0, 3, 5] {
        judge.figures(f, room);
    }
    judge.decode(f, &[], 0, 0);
    judge.encode(f, &[], &[], 0);
    judge.verify(f, &[], &[], &[]);
    judge.cover(f, &[], 0);
    judge.interleave(f, depth, &[], 0);
    judge.deinterleave(f, depth, &[], 0);
    judge.job_write(f, &[], &[], &[], 0);
    judge.job_read(f, &[], &[], 0);
    judge.prescription_write(f, &[], &[], 0, NONE, 0);
    judge.prescription_read(f, &[], &[], 0, 0);
}
