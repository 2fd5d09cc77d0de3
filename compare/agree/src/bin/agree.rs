//! Runs the proved library and the second implementation on the same inputs and compares everything they give back.
//! `agree --gate` is the test; `agree --long ROUNDS [SEED]` a longer run with other seeds.

use std::process::ExitCode;
use std::time::Instant;

use agree::judge::Judge;
use agree::kinds::CODES;
use agree::make::{figures, movable_figures};
use agree::orders::Tray;
use agree::rng::Rng;
use agree::{
    calls, eyes, former, grid, jobs, lanes, larsson, lengths, long, moving, prescriptions, strips,
    torics, words,
};
use second::figures::Code;
use second::lanes::MAX_DEPTH;

const GATE_SEED: u64 = 1996;
const GATE_ROUNDS: u64 = 30_000;
const GATE_WORDS: u64 = 200_000;
/// One round in so many is made with the other codes' figures too, and with moves between the Larsson code and Construction A.
const OTHERS: u64 = 6;

fn main() -> ExitCode {
    let args: Vec<String> = std::env::args().skip(1).collect();
    let args: Vec<&str> = args.iter().map(String::as_str).collect();
    match args[..] {
        ["--gate"] => run(GATE_ROUNDS, GATE_SEED, false),
        ["--long", rounds] => run_long(rounds, "1"),
        ["--long", rounds, seed] => run_long(rounds, seed),
        _ => usage(),
    }
}

fn usage() -> ExitCode {
    eprintln!("usage: agree --gate | agree --long ROUNDS [SEED]");
    ExitCode::from(2)
}

fn run_long(rounds: &str, seed: &str) -> ExitCode {
    match (rounds.parse(), seed.parse()) {
        (Ok(rounds), Ok(seed)) => run(rounds, seed, true),
        _ => usage(),
    }
}

fn run(rounds: u64, seed: u64, long: bool) -> ExitCode {
    let begun = Instant::now();
    let mut judge = Judge::default();
    let mut rng = Rng::new(seed);
    strips::run(&mut judge);
    grid::run(&mut judge);
    former::run(&mut judge);
    lengths::run(&mut judge);
    patterns(&mut judge, &mut rng, long);
    eyes::run(&mut judge);
    for code in CODES {
        torics::payload_lengths(&mut judge, &mut rng, code);
    }
    torics::every_toric(&mut judge, &mut rng);
    long::run(&mut judge, &mut rng);
    larsson::run(&mut judge, &mut rng);
    moving::run(&mut judge, &mut rng);
    let powers = eyes::odd();
    for round in 0..rounds {
        strip_round(&mut judge, &mut rng, Code::ConstructionA, &powers);
        if round % OTHERS == 0 {
            strip_round(&mut judge, &mut rng, Code::ConstructionB, &powers);
            strip_round(&mut judge, &mut rng, Code::Larsson, &powers);
            let movable = movable_figures(&mut rng);
            moving::round(&mut judge, &mut rng, movable);
        }
        calls::single(&mut judge, &mut rng);
        if round % 16 == 0 {
            for f in CODES.map(|code| figures(&mut rng, code)) {
                words::end_ranks(&mut judge, &mut rng, f);
                lanes::round(&mut judge, &mut rng, f, depth(round / 16));
            }
            words::wrapped_values(&mut judge, &mut rng);
            calls::list(&mut judge, &mut rng);
        }
        if long && round % 10_000 == 9_999 {
            let seconds = begun.elapsed().as_secs();
            eprintln!("{} of {rounds} rounds, {seconds} s", round + 1);
        }
    }
    finish(&judge, seed, begun)
}

/// Words, jobs and prescriptions under random figures of a code.
fn strip_round(judge: &mut Judge, rng: &mut Rng, code: Code, powers: &[f64]) {
    let f = figures(rng, code);
    words::round(judge, rng, f);
    let f = figures(rng, code);
    jobs::round(judge, rng, f);
    let tray = Tray::random(rng, code);
    prescriptions::round(judge, rng, tray, powers);
}

/// Each depth in turn.
fn depth(turn: u64) -> u32 {
    1 + (turn % MAX_DEPTH as u64) as u32
}

/// Every pattern of first symbols for up to 9 blocks (16 in a long run), and samples above.
fn patterns(judge: &mut Judge, rng: &mut Rng, long: bool) {
    for n in [60, 61, 200, 1024, 4096] {
        words::patterns(judge, rng, n, 1, 1);
        words::patterns(judge, rng, n, 2, 1);
        words::patterns(judge, rng, n, 3, 1);
    }
    words::patterns(judge, rng, 500, 4, if long { 1 } else { 16 });
    words::patterns(judge, rng, 1000, 5, 1 << if long { 9 } else { 14 });
    words::patterns(judge, rng, 1024, 6, 1 << if long { 18 } else { 24 });
    words::patterns(judge, rng, 1999, 7, 1 << if long { 31 } else { 37 });
    words::patterns(judge, rng, 999, 8, 1 << if long { 46 } else { 52 });
}

fn finish(judge: &Judge, seed: u64, begun: Instant) -> ExitCode {
    println!("calls by kind, with each answer and how often both sides gave it (seed {seed}):");
    let complete = judge.tally.summary();
    let (words, seconds) = (judge.tally.words(), begun.elapsed().as_secs_f64());
    let enough = words >= GATE_WORDS;
    println!(
        "agree: {words} words, {} differences, {seconds:.1} s",
        judge.differences
    );
    if !enough {
        println!("agree: fewer than {GATE_WORDS} words");
    }
    ExitCode::from((judge.differences > 0 || !complete || !enough) as u8)
}
