//! The transfer programs' records a second, on the same stream from a file, with their output thrown away.

use std::fs::{remove_file, File};
use std::path::Path;
use std::process::{Command, Stdio};
use std::time::Instant;

use agree::rng::Rng;
use agree::streams::served;
use second::Figures;

use crate::rows::name;

const ROUNDS: usize = 5;
const RECORDS: u64 = 40_000;
const FIGURES: [(u32, u32, u32, u32); 7] = [
    (64, 256, 1, 16),
    (256, 16, 3, 16),
    (1024, 2, 1, 16),
    (1024, 256, 3, 16),
    (1024, 256, 6, 16),
    (4096, 256, 1, 16),
    (4096, 256, 6, 16),
];

/// The seconds that a program takes for the stream.
fn seconds(program: &str, stream: &Path) -> f64 {
    let input = File::open(stream).expect("the stream was written");
    let begun = Instant::now();
    let status = Command::new(program)
        .stdin(input)
        .stdout(Stdio::null())
        .status();
    assert!(
        status.is_ok_and(|status| status.success()),
        "{program} failed"
    );
    begun.elapsed().as_secs_f64()
}

fn median(mut times: [f64; ROUNDS]) -> f64 {
    times.sort_unstable_by(f64::total_cmp);
    times[ROUNDS / 2]
}

pub fn table(ours: &str, second: &str) {
    println!(
        "records a second, W and R in turn, {RECORDS} of them; median of {ROUNDS} runs in turn"
    );
    println!("    n  m    q    b        ours      second   ours/second");
    let stream = std::env::temp_dir().join(format!("bench-stream-{}", std::process::id()));
    for (n, q, m, b) in FIGURES {
        let Ok(f) = Figures::new(n, q, m, b) else {
            continue;
        };
        eprintln!("transfer: {}", name(&f));
        let bytes = served(&mut Rng::new(1996), &f, RECORDS);
        std::fs::write(&stream, bytes).expect("the stream can be written");
        let round = || [ours, second].map(|program| seconds(program, &stream));
        let rounds = [(); ROUNDS].map(|()| round());
        let [a, b] = [0, 1].map(|i| RECORDS as f64 / median(rounds.map(|round| round[i])));
        println!("{} {a:>11.0} {b:>11.0} {:>13.2}", name(&f), a / b);
    }
    let _ = remove_file(&stream);
}
