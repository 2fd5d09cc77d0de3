//! Words side by side: the rearrangement and its inverse, beside plain copies of the same bytes.

use std::hint::black_box;

use agree::make::{numbers, symbol};
use agree::rng::Rng;
use agree::sides::{Side, PROVED, SECOND};
use second::Figures;

use crate::timing::{median, rounds, ROUNDS};

const SEED: u64 = 1996;
const N: u32 = 1024;
const DEPTH: u32 = 16;
const CELLS: usize = (N * DEPTH) as usize;
/// With q 16 each symbol is looked at; with 256 every byte is one.
const ALPHABETS: [u32; 2] = [16, 256];

#[derive(Clone, Copy)]
enum Measured {
    Interleave(&'static Side),
    Deinterleave(&'static Side),
    /// `copy_from_slice`, which is the C library's memcpy.
    Copy,
    /// A loop that stores one byte after another.
    ByteLoop,
}

/// The measured calls by the names under which they are asked for, in the order in which each round takes them.
const CALLS: [(&str, Measured); 6] = [
    ("ours-interleave", Measured::Interleave(&PROVED)),
    ("second-interleave", Measured::Interleave(&SECOND)),
    ("ours-deinterleave", Measured::Deinterleave(&PROVED)),
    ("second-deinterleave", Measured::Deinterleave(&SECOND)),
    ("copy", Measured::Copy),
    ("byte-loop", Measured::ByteLoop),
];

/// A list of symbols, and the buffer that each call fills.
struct Work {
    f: Figures,
    from: Vec<u8>,
    to: Vec<u8>,
}

impl Work {
    fn new(q: u32) -> Option<Work> {
        let f = Figures::new(N, q, 3, 16).ok()?;
        let mut rng = Rng::new(SEED);
        let from = (0..CELLS).map(|_| symbol(&mut rng, q)).collect();
        let to = vec![0; CELLS];
        Some(Work { f, from, to })
    }

    fn run(&mut self, measured: Measured, calls: usize) {
        for _ in 0..calls {
            let (from, to) = (black_box(&self.from[..]), &mut self.to[..]);
            let figures = black_box(numbers(&self.f));
            let answer = match measured {
                Measured::Interleave(side) => (side.interleave)(figures, DEPTH, from, to),
                Measured::Deinterleave(side) => (side.deinterleave)(figures, DEPTH, from, to),
                Measured::Copy => {
                    to.copy_from_slice(from);
                    0
                }
                Measured::ByteLoop => {
                    byte_loop(from, to);
                    0
                }
            };
            black_box(&self.to);
            assert_eq!(answer, 0, "a measured call is served");
        }
    }
}

/// Copies byte by byte. The stores are volatile, so that the compiler neither joins them nor makes a memcpy of the loop.
fn byte_loop(from: &[u8], to: &mut [u8]) {
    for (to, &from) in to.iter_mut().zip(from) {
        // SAFETY: the pointer is a reference's own.
        unsafe { std::ptr::write_volatile(to, from) };
    }
}

/// Prints the times of both calls, and their ratios to the second implementation and to either copy.
pub fn table() {
    println!("side by side, n {N}, depth {DEPTH}: nanoseconds a symbol, and the ratios ours/second, ours/memcpy and ours/byte loop, the copies being of the");
    println!("same {CELLS} bytes: copy_from_slice (memcpy), and a loop of single stores (byte loop); medians of {ROUNDS} rounds");
    println!("                    interleave                       deinterleave            copies");
    println!("    q      ours  second    o/s   o/m   o/b      ours  second    o/s   o/m   o/b    memcpy  byte loop");
    for q in ALPHABETS {
        let mut work = Work::new(q).expect("these figures fit");
        let rounds: Vec<[f64; CALLS.len()]> =
            rounds(CELLS, &mut |call, calls| work.run(CALLS[call].1, calls));
        let time = |i: usize| median(rounds.iter().map(|times| times[i]));
        let ratio = |i: usize, j: usize| median(rounds.iter().map(|times| times[i] / times[j]));
        let columns = |ours: usize| {
            let [second, memcpy, bytes] = [ours + 1, 4, 5].map(|other| ratio(ours, other));
            let (a, b) = (time(ours), time(ours + 1));
            format!("{a:>8.3} {b:>7.3} {second:>6.2} {memcpy:>5.1} {bytes:>5.2}")
        };
        println!(
            "{q:>5}  {}  {}  {:>8.4} {:>10.4}",
            columns(0),
            columns(2),
            time(4),
            time(5)
        );
    }
}

/// Makes calls for an instruction counter; None where the words ask for nothing known.
pub fn count(call: &str, q: &str, calls: &str) -> Option<()> {
    let (_, measured) = CALLS.iter().find(|(name, _)| *name == call)?;
    Work::new(q.parse().ok()?)?.run(*measured, calls.parse().ok()?);
    Some(())
}
