//! The measured figures, and strips of them made ready.

use std::hint::black_box;

use agree::make::{numbers, placement, start_bytes};
use agree::rng::Rng;
use agree::sides::{Numbers, Side, PROVED, SECOND};
use second::job::{has_room, payload_len};
use second::Figures;

/// Strips taken in turn, so that no single placement is measured.
const STRIPS: usize = 16;
const SEED: u64 = 1996;

/// The figures of each row. Burst lengths: the largest power of two that fits, at most 16; rows that none fits are left out.
pub fn rows() -> Vec<Figures> {
    let mut rows = Vec::new();
    for n in [64, 256, 1024, 4096] {
        for m in [1, 3, 6] {
            for q in [2, 16, 256] {
                let lengths = [16, 8, 4, 2, 1];
                rows.extend(lengths.iter().find_map(|&b| Figures::new(n, q, m, b).ok()));
            }
        }
    }
    rows
}

/// Construction B's rows. Burst lengths: the largest power of two that fits.
pub fn long_rows() -> Vec<Figures> {
    let mut rows = Vec::new();
    for n in [64, 256, 1024, 4096] {
        for q in [2, 16, 256] {
            let mut lengths = (0..12).rev().map(|power| 1 << power);
            rows.extend(lengths.find_map(|b| Figures::construction_b(n, q, b).ok()));
        }
    }
    rows
}

/// The figures that both the Larsson code and Construction A take, of each. Burst lengths as in `rows`. All have room for a job.
pub fn larsson_rows() -> Vec<(Figures, Figures)> {
    let mut rows = Vec::new();
    for n in [64, 256, 1024, 4096] {
        for m in [1, 3, 6] {
            for q in [2, 16, 256] {
                let both = |b: &u32| {
                    let larsson = Figures::larsson(n, q, m, *b).ok()?;
                    Some((larsson, Figures::new(n, q, m, *b).ok()?))
                };
                rows.extend([16, 8, 4, 2, 1].iter().find_map(both));
            }
        }
    }
    rows
}

pub fn name(f: &Figures) -> String {
    format!("{:>5} {:>2} {:>4} {:>4}", f.n, f.m, f.q, f.b)
}

/// Prints a line for each of Construction A's rows: its number and its figures.
pub fn list() {
    for (i, f) in rows().iter().enumerate() {
        println!("{i} {}", name(f));
    }
}

/// The same for Construction B's rows, whose numbers go on behind those.
pub fn list_long() {
    let before = rows().len();
    for (i, f) in long_rows().iter().enumerate() {
        println!("{} {}", before + i, name(f));
    }
}

/// The same for the Larsson code's rows, each with the number of Construction A's row with these figures, which go on behind those.
pub fn list_larsson() {
    let before = rows().len() + long_rows().len();
    let rows = larsson_rows();
    for (i, (f, _)) in rows.iter().enumerate() {
        let row = before + i;
        println!("{row} {} {}", row + rows.len(), name(f));
    }
}

struct Strip {
    starts: Vec<u8>,
    message: Vec<u8>,
    /// Damaged in its runs by symbols, and by silent cells too.
    found: Vec<u8>,
    silent: Vec<u8>,
}

/// A job of the table, and its strip with damage in its runs.
struct Job {
    starts: Vec<u8>,
    payload: Vec<u8>,
    found: Vec<u8>,
}

/// Strips ready to be written and read, and buffers that are never cleared between calls.
pub struct Work {
    numbers: Numbers,
    strips: Vec<Strip>,
    /// Empty where the figures have no room for one.
    jobs: Vec<Job>,
    table: Vec<u8>,
    word: Vec<u8>,
    message: Vec<u8>,
    starts: Vec<u8>,
    payload: Vec<u8>,
}

impl Work {
    pub fn new(f: &Figures) -> Work {
        let mut rng = Rng::new(SEED);
        let strips = (0..STRIPS).map(|_| strip(&mut rng, f)).collect();
        let jobs = if has_room(f) { STRIPS } else { 0 };
        Work {
            numbers: numbers(f),
            strips,
            jobs: (0..jobs).map(|_| job(&mut rng, f)).collect(),
            table: table(),
            word: vec![0; f.n],
            message: vec![0; f.k],
            starts: vec![0; 2 * f.m],
            payload: vec![0; payload_len(f)],
        }
    }

    /// Makes so many calls, through the same signature on either side; the figures are judged anew in each.
    pub fn run(&mut self, measured: Measured, calls: usize) {
        for i in 0..calls {
            let strip = &self.strips[i % STRIPS];
            let answer = match measured {
                Measured::Encode(side) => {
                    let numbers = black_box(self.numbers);
                    (side.encode)(numbers, &strip.starts, &strip.message, &mut self.word)
                }
                Measured::Decode(side) => {
                    let numbers = black_box(self.numbers);
                    (side.decode)(numbers, &strip.found, &mut self.message, &mut self.starts)
                }
                Measured::Silent(side) => {
                    let numbers = black_box(self.numbers);
                    (side.decode)(numbers, &strip.silent, &mut self.message, &mut self.starts)
                }
                Measured::JobWrite(side) => self.write_job(side, i),
                Measured::JobRead(side) => self.read_job(side, i),
                Measured::Copy => {
                    self.word.copy_from_slice(black_box(&strip.found));
                    0
                }
            };
            black_box((&self.word, &self.message, &self.starts));
            assert_eq!(answer, 0, "a measured call is served");
        }
    }

    fn write_job(&mut self, side: &Side, i: usize) -> u8 {
        let job = &self.jobs[i % STRIPS];
        let numbers = black_box(self.numbers);
        (side.job_write)(
            numbers,
            &self.table,
            &job.starts,
            &job.payload,
            &mut self.word,
        )
    }

    fn read_job(&mut self, side: &Side, i: usize) -> u8 {
        let job = &self.jobs[i % STRIPS];
        let numbers = black_box(self.numbers);
        let answer = (side.job_read)(numbers, &self.table, &job.found, &mut self.payload);
        black_box(&self.payload);
        answer
    }
}

/// A call to be measured.
#[derive(Clone, Copy)]
pub enum Measured {
    Encode(&'static Side),
    Decode(&'static Side),
    /// Reading a word with silent cells in its runs.
    Silent(&'static Side),
    JobWrite(&'static Side),
    JobRead(&'static Side),
    Copy,
}

/// A table of 64 open jobs, numbers 1 to 64.
fn table() -> Vec<u8> {
    (1..=64u8).flat_map(|number| [1, 0, 0, 0, number]).collect()
}

fn job(rng: &mut Rng, f: &Figures) -> Job {
    let placement = placement(rng, f);
    let starts = start_bytes(&placement);
    let mut payload = rng.bytes(payload_len(f));
    payload[..4].copy_from_slice(&[0, 0, 0, rng.between(1, 64) as u8]);
    let mut found = vec![0; f.n];
    let answer = (SECOND.job_write)(numbers(f), &table(), &starts, &payload, &mut found);
    assert_eq!(answer, 0, "an open job is written");
    for &start in &placement {
        for cell in &mut found[start as usize..start as usize + f.b] {
            *cell = rng.below(f.q as u64) as u8;
        }
    }
    Job {
        starts,
        payload,
        found,
    }
}

fn strip(rng: &mut Rng, f: &Figures) -> Strip {
    let placement = placement(rng, f);
    let starts = start_bytes(&placement);
    let message: Vec<u8> = (0..f.k).map(|_| rng.below(f.q as u64) as u8).collect();
    let mut found = vec![0; f.n];
    let answer = (SECOND.encode)(numbers(f), &starts, &message, &mut found);
    assert_eq!(answer, 0, "a placement is written");
    let mut silent = found.clone();
    for &start in &placement {
        for x in start as usize..start as usize + f.b {
            found[x] = rng.below(f.q as u64) as u8;
            // every second cell; where no byte is left for it, a symbol
            silent[x] = if x % 2 == 0 && f.q < 256 {
                f.q as u8
            } else {
                found[x]
            };
        }
    }
    Strip {
        starts,
        message,
        found,
        silent,
    }
}

/// What the words ask to measure, and the strips of that row; None where they are no such call.
pub fn asked(side: &str, call: &str, row: &str) -> Option<(Measured, Work)> {
    let side = match side {
        "ours" => &PROVED,
        "second" => &SECOND,
        _ => return None,
    };
    let measured = match call {
        "encode" => Measured::Encode(side),
        "decode" => Measured::Decode(side),
        "silent" => Measured::Silent(side),
        "job-write" => Measured::JobWrite(side),
        "job-read" => Measured::JobRead(side),
        _ => return None,
    };
    let (larsson, beside) = larsson_rows().into_iter().unzip();
    let rows = [rows(), long_rows(), larsson, beside].concat();
    let f = rows.get(row.parse::<usize>().ok()?)?;
    let job = matches!(measured, Measured::JobWrite(_) | Measured::JobRead(_));
    (!job || has_room(f)).then(|| (measured, Work::new(f)))
}

/// Makes calls for an instruction counter.
pub fn count(side: &str, call: &str, row: &str, calls: &str) -> Option<()> {
    let (measured, mut work) = asked(side, call, row)?;
    work.run(measured, calls.parse().ok()?);
    Some(())
}
