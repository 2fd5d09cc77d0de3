//! The table of times: each row's calls in turn, several rounds, the median of each.

use std::time::Instant;

use agree::sides::{PROVED, SECOND};
use second::Figures;

use crate::rows::{asked, name, Measured, Work};

pub const ROUNDS: usize = 101;
/// How long one measurement of a round is to take, about: short enough to be rarely interrupted.
const NANOSECONDS: f64 = 2.5e5;

/// The calls of a row, of which the last is the copy.
const CALLS: usize = 5;

/// The names of a writing and a reading call, and the calls of a row in the order in which each round takes them.
pub struct Calls {
    names: [&'static str; 2],
    measured: [Measured; CALLS],
}

pub const WORDS: Calls = Calls {
    names: ["encode", "decode"],
    measured: [
        Measured::Encode(&PROVED),
        Measured::Encode(&SECOND),
        Measured::Decode(&PROVED),
        Measured::Decode(&SECOND),
        Measured::Copy,
    ],
};

pub const JOBS: Calls = Calls {
    names: ["job write", "job read"],
    measured: [
        Measured::JobWrite(&PROVED),
        Measured::JobWrite(&SECOND),
        Measured::JobRead(&PROVED),
        Measured::JobRead(&SECOND),
        Measured::Copy,
    ],
};

/// Makes so many of one of the calls.
pub type Run<'a> = dyn FnMut(usize, usize) + 'a;

/// Nanoseconds a call, of so many calls.
fn time(run: &mut Run, call: usize, calls: usize) -> f64 {
    let begun = Instant::now();
    run(call, calls);
    begun.elapsed().as_nanos() as f64 / calls as f64
}

/// How many calls one measurement makes.
fn enough(run: &mut Run, call: usize) -> usize {
    (NANOSECONDS / time(run, call, 100).max(1.0)) as usize + 16
}

/// Prints the nanoseconds a call of one measurement, for builds that are run in turn.
pub fn once(side: &str, call: &str, row: &str) -> Option<()> {
    let (measured, mut work) = asked(side, call, row)?;
    let mut run = |_, calls| work.run(measured, calls);
    let calls = enough(&mut run, 0);
    println!("{:.1}", time(&mut run, 0, 4 * calls));
    Some(())
}

/// Nanoseconds a symbol of each call, one list of all calls for each round.
pub fn rounds<const CALLS: usize>(symbols: usize, run: &mut Run) -> Vec<[f64; CALLS]> {
    let calls: [usize; CALLS] = std::array::from_fn(|call| enough(run, call));
    let mut round = || std::array::from_fn(|call| time(run, call, calls[call]) / symbols as f64);
    (0..ROUNDS).map(|_| round()).collect()
}

pub fn median(values: impl Iterator<Item = f64>) -> f64 {
    let mut values: Vec<f64> = values.collect();
    values.sort_unstable_by(f64::total_cmp);
    values[values.len() / 2]
}

/// The columns of one call: both sides' times, and the ratios, each the median of the rounds' own.
fn columns(rounds: &[[f64; CALLS]], ours: usize, second: usize) -> String {
    let time = |i: usize| median(rounds.iter().map(|times| times[i]));
    let ratio = |i: usize| median(rounds.iter().map(|times| times[ours] / times[i]));
    let (to_second, to_copy) = (ratio(second), ratio(CALLS - 1));
    let (a, b) = (time(ours), time(second));
    format!("{a:>8.3} {b:>7.3} {to_second:>6.2} {to_copy:>5.0}")
}

/// Prints the times of these rows.
pub fn table(rows: &[Figures], calls: &Calls) {
    let [write, read] = calls.names;
    println!("nanoseconds a symbol, and the ratios ours/second and ours/copy; medians of {ROUNDS} rounds");
    println!("{:28}{write:<32}{read:<22}copy", "");
    println!(
        "    n  m    q    b     ours  second    o/s   o/c      ours  second    o/s   o/c       ns"
    );
    for (i, f) in rows.iter().enumerate() {
        eprint!("\rtimes: row {} of {}", i + 1, rows.len());
        let mut work = Work::new(f);
        let rounds = rounds(f.n, &mut |call, count| {
            work.run(calls.measured[call], count)
        });
        let (encode, decode) = (columns(&rounds, 0, 1), columns(&rounds, 2, 3));
        let copy = median(rounds.iter().map(|times| times[CALLS - 1]));
        println!("{} {encode}  {decode} {copy:>8.4}", name(f));
    }
    eprintln!();
}
