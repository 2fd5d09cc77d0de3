//! Feeds transfer streams to a program and compares what it prints with the second transfer program, byte for byte.
//! `agree-transfer PROGRAM [STREAMS [SEED]]`; `agree-transfer --limit PROGRAM [RECORDS]` sends one record too many.

use std::io::{BufRead, BufReader, Read, Write};
use std::process::{Child, Command, ExitCode, Stdio};
use std::sync::mpsc;
use std::time::{Duration, Instant};

use agree::rng::Rng;
use agree::streams::{figures_alone, served, stream};
use second::transfer::transfer;
use second::Figures;

const STREAMS: u64 = 2000;
const SEED: u64 = 1996;
const PRINTED: u64 = 10;
/// One record more than the program serves.
const RECORDS: u64 = 4_294_967_296;

/// Document 01's example, one record to a line.
const EXAMPLE: [&[u8]; 7] = [
    b"LTS\x00\x0F\xFF\x01\x00\x02",
    b"LTO\0\0\0\x07",
    b"LTW\0\x06\0\0\0\x07ABCDEFG",
    b"LTR\0\0\0\0\x07A\xFF\xFFBC\x07DEFG",
    b"LTC\0\0\0\x07",
    b"LTR\0\0\0\0\x07A\xFF\xFFBC\x07DEFG",
    b"LTO\0\0\0\x07",
];

fn main() -> ExitCode {
    let args: Vec<String> = std::env::args().skip(1).collect();
    let number = |i: usize, default: u64| match args.get(i) {
        Some(text) => text.parse().ok(),
        None => Some(default),
    };
    match (args.first().map(String::as_str), args.get(1)) {
        (Some("--limit"), Some(program)) => match number(2, RECORDS) {
            Some(records) => limit(program, records),
            None => usage(),
        },
        (Some(program), _) => match (number(1, STREAMS), number(2, SEED)) {
            (Some(streams), Some(seed)) => compare(program, streams, seed),
            _ => usage(),
        },
        _ => usage(),
    }
}

fn usage() -> ExitCode {
    eprintln!("usage: agree-transfer PROGRAM [STREAMS [SEED]]");
    eprintln!("       agree-transfer --limit PROGRAM [RECORDS]");
    ExitCode::from(2)
}

fn limit(program: &str, records: u64) -> ExitCode {
    let right = agree::limit::holds(program, records).unwrap_or(false);
    let verdict = if right {
        "right"
    } else {
        "not what document 01 says"
    };
    println!("agree-transfer: {records} records: {verdict}");
    ExitCode::from(!right as u8)
}

/// What was compared so far.
#[derive(Default)]
struct Tally {
    streams: u64,
    lines: u64,
    differences: u64,
    /// How often each answer was printed, by letter (the place in LETTERS) and number.
    answers: [[u64; 25]; LETTERS.len()],
}

const WRITTEN: &[usize] = &[0, 5, 10, 12, 14, 17];
const READ: &[usize] = &[0, 4, 7, 8, 9, 10, 12, 14, 19];
const LETTERS: &[u8; 10] = b"SLOCFWRwrs";
/// The answers that each letter can have, all of which a run of the usual length must see; w and r are for W and R that
/// follow an L, s is for stop.
const POSSIBLE: [&[usize]; LETTERS.len()] = [
    &[0, 1, 2],
    &[0, 1, 2],
    &[0, 12, 13, 15, 17],
    &[0, 12, 15, 17],
    &[0, 12, 14],
    WRITTEN,
    READ,
    WRITTEN,
    READ,
    &[11],
];

fn compare(program: &str, streams: u64, seed: u64) -> ExitCode {
    let begun = Instant::now();
    let mut rng = Rng::new(seed);
    let mut tally = Tally::default();
    tally.compare(program, &EXAMPLE.concat(), usize::MAX);
    for _ in 0..streams {
        let records = rng.pick(&[1, 10, 40, 100]);
        let input = stream(&mut rng, records);
        let piece = rng.pick(&[usize::MAX, usize::MAX, usize::MAX, 7, 100, 4096]);
        tally.compare(program, &input, piece);
    }
    for (f, records) in [
        (Figures::new(15, 256, 1, 2), 20_000),
        (Figures::new(200, 4, 2, 9), 20_000),
        (Figures::new(1024, 16, 3, 16), 20_000),
        (Figures::new(1024, 256, 6, 16), 20_000),
        (Figures::new(999, 256, 8, 15), 5_000),
        (Figures::new(1999, 256, 7, 39), 5_000),
        (Figures::new(4096, 256, 6, 112), 5_000),
        (Figures::new(4096, 2, 1, 1000), 5_000),
        (Figures::construction_b(15, 256, 5), 20_000),
        (Figures::construction_b(4096, 2, 1365), 5_000),
    ] {
        let f = f.expect("these figures fit");
        let input = served(&mut rng, &f, records);
        tally.compare(program, &input, usize::MAX);
    }
    tally.compare(program, &figures_alone(), usize::MAX);
    let prompt = prompt_lines(program);
    if !prompt {
        println!("difference: no line came for a record before the next was sent");
    }
    let complete = tally.summary() || streams < STREAMS;
    println!(
        "agree-transfer: {} streams, {} lines, {} differences, {:.1} s (seed {seed})",
        tally.streams,
        tally.lines,
        tally.differences,
        begun.elapsed().as_secs_f64()
    );
    ExitCode::from((tally.differences > 0 || !prompt || !complete) as u8)
}

impl Tally {
    fn compare(&mut self, program: &str, input: &[u8], piece: usize) {
        let (theirs, ours) = (transfer(input), printed(program, input, piece));
        self.streams += 1;
        self.count(&theirs);
        if ours != theirs {
            self.differences += 1;
            if self.differences <= PRINTED {
                show(input, &ours, &theirs);
            }
        }
    }

    fn count(&mut self, printed: &[u8]) {
        let mut long = false;
        for line in printed
            .split(|&byte| byte == b'\n')
            .filter(|line| !line.is_empty())
        {
            self.lines += 1;
            let mut fields = line.split(|&byte| byte == b' ');
            let letter = fields.next().and_then(|field| field.first()).copied();
            let letter = match letter {
                Some(b'W') if long => Some(b'w'),
                Some(b'R') if long => Some(b'r'),
                other => other,
            };
            let row = LETTERS.iter().position(|&known| Some(known) == letter);
            let text = fields
                .next()
                .and_then(|field| std::str::from_utf8(field).ok());
            let answer = text.and_then(|text| text.parse::<usize>().ok());
            if let (Some(row), Some(answer)) = (row, answer) {
                self.answers[row][answer] += 1;
            }
            if let (Some(b'S' | b'L'), Some(0)) = (letter, answer) {
                long = letter == Some(b'L');
            }
        }
    }

    /// Prints the answers seen, and tells whether every possible one was.
    fn summary(&self) -> bool {
        let mut complete = true;
        for (row, possible) in POSSIBLE.iter().enumerate() {
            let seen = |&&answer: &&usize| self.answers[row][answer] > 0;
            let shown = |&answer: &usize| format!("{answer}: {}", self.answers[row][answer]);
            let list: Vec<String> = possible.iter().map(shown).collect();
            println!("{:>6}   {}", LETTERS[row] as char, list.join("  "));
            if !possible.iter().all(|answer| seen(&answer)) {
                println!("never seen: some answer after {}", LETTERS[row] as char);
                complete = false;
            }
        }
        complete
    }
}

fn start(program: &str) -> Child {
    let spawned = Command::new(program)
        .stdin(Stdio::piped())
        .stdout(Stdio::piped())
        .spawn();
    spawned.unwrap_or_else(|error| panic!("{program} can't be started: {error}"))
}

/// What the program prints for an input that is sent in pieces.
fn printed(program: &str, input: &[u8], piece: usize) -> Vec<u8> {
    let mut child = start(program);
    let (stdin, stdout) = (child.stdin.take(), child.stdout.take());
    let mut out = Vec::new();
    std::thread::scope(|scope| {
        scope.spawn(move || {
            let Some(mut stdin) = stdin else { return };
            // A program that stops needn't read the rest.
            let _ = input
                .chunks(piece.min(1 << 20))
                .try_for_each(|part| stdin.write_all(part));
        });
        if let Some(mut stdout) = stdout {
            let _ = stdout.read_to_end(&mut out);
        }
    });
    let _ = child.wait();
    out
}

/// Whether each record's line comes before the next record is sent.
fn prompt_lines(program: &str) -> bool {
    let mut child = start(program);
    let (stdin, stdout) = (child.stdin.take(), child.stdout.take());
    let (send, lines) = mpsc::channel();
    let reader = std::thread::spawn(move || {
        let lines = stdout
            .into_iter()
            .flat_map(|stdout| BufReader::new(stdout).lines());
        lines.map_while(Result::ok).for_each(|line| {
            let _ = send.send(line);
        });
    });
    let wait = Duration::from_secs(10);
    let prompt = stdin.is_some_and(|mut stdin| {
        let mut records = EXAMPLE.iter();
        records.all(|record| stdin.write_all(record).is_ok() && lines.recv_timeout(wait).is_ok())
    });
    let closed = lines.recv_timeout(wait).is_ok_and(|line| line == "end");
    let _ = child.kill();
    let _ = child.wait();
    let _ = reader.join();
    prompt && closed
}

/// Shows the first line that differs.
fn show(input: &[u8], ours: &[u8], theirs: &[u8]) {
    let (a, b) = (
        String::from_utf8_lossy(ours),
        String::from_utf8_lossy(theirs),
    );
    let same = a.lines().zip(b.lines()).take_while(|(a, b)| a == b).count();
    let line = |text: &str| text.lines().nth(same).unwrap_or("(nothing)").to_string();
    println!(
        "difference: line {}: program {:?}, second {:?}",
        same + 1,
        line(&a),
        line(&b)
    );
    println!("  input {}", agree::judge::hex(input));
}
