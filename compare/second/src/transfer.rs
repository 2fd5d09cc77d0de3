//! The transfer program: records in, one printed line each.

use std::io::Write;

use crate::book::Book;
use crate::figures::{Figures, MAX_RUNS};
use crate::job;

const MARK: [u8; 2] = [0x4C, 0x54];
/// Mark and kind letter.
const HEAD: usize = 3;

/// What came of looking at the front of the input.
#[derive(Debug, PartialEq, Eq)]
pub enum Step {
    /// A record of so many bytes was served and its line printed.
    Record(usize),
    /// The front is no whole record yet.
    More,
    /// No record can be made of it, whatever follows.
    Stop,
}

/// The program between two records.
#[derive(Default)]
pub struct Machine {
    figures: Option<Figures>,
    book: Book,
    /// Records printed so far.
    pub records: u32,
}

impl Machine {
    /// Serves the record at the front of `input`.
    pub fn step(&mut self, input: &[u8], out: &mut Vec<u8>) -> Step {
        if input.is_empty() {
            return Step::More;
        }
        let known = input.len().min(MARK.len());
        if self.records == u32::MAX || input[..known] != MARK[..known] {
            return Step::Stop;
        }
        let Some(&letter) = input.get(MARK.len()) else {
            return Step::More;
        };
        let Some(len) = self.body_len(letter) else {
            return Step::Stop;
        };
        let Some(body) = input.get(HEAD..HEAD + len) else {
            return Step::More;
        };
        self.serve(letter, body, out);
        self.records += 1;
        Step::Record(HEAD + len)
    }

    /// The bytes after the letter; none for an unknown letter, or one that figures must come before.
    fn body_len(&self, letter: u8) -> Option<usize> {
        match letter {
            b'S' => Some(6),
            b'L' => Some(5),
            b'O' | b'C' | b'F' => Some(4),
            b'W' => self.figures.map(|f| 2 * f.m + job::payload_len(&f)),
            b'R' => self.figures.map(|f| f.n),
            _ => None,
        }
    }

    fn serve(&mut self, letter: u8, body: &[u8], out: &mut Vec<u8>) {
        match (letter, self.figures) {
            (b'S' | b'L', _) => self.take_figures(letter, body, out),
            (b'W', Some(f)) => self.write(&f, body, out),
            (b'R', Some(f)) => self.read(&f, body, out),
            _ => self.call(letter, body, out),
        }
        out.push(b'\n');
    }

    /// The figures of Construction A, or with letter L of Construction B.
    fn take_figures(&mut self, letter: u8, body: &[u8], out: &mut Vec<u8>) {
        let two = |at: usize| u16::from_be_bytes([body[at], body[at + 1]]) as u32;
        let (n, q) = (two(0), body[2] as u32 + 1);
        let judged = match letter {
            b'L' => Figures::construction_b(n, q, two(3)),
            _ => Figures::new(n, q, body[3] as u32, two(4)),
        };
        answer(out, letter, judged.err().unwrap_or(0));
        if let Ok(f) = judged {
            let _ = write!(out, " {} {} {}", f.t, f.r, f.k);
            self.figures = Some(f);
        }
    }

    fn call(&mut self, letter: u8, body: &[u8], out: &mut Vec<u8>) {
        let number = u32::from_be_bytes([body[0], body[1], body[2], body[3]]);
        let refusal = match letter {
            b'O' => self.book.open(number),
            b'C' => self.book.cancel(number),
            _ => self.book.finish(number),
        };
        answer(out, letter, refusal);
    }

    fn write(&self, f: &Figures, body: &[u8], out: &mut Vec<u8>) {
        let mut starts = [0; MAX_RUNS];
        for (start, pair) in starts[..f.m].iter_mut().zip(body.chunks_exact(2)) {
            *start = u16::from_be_bytes([pair[0], pair[1]]);
        }
        let mut word = vec![0; f.n];
        let payload = &body[2 * f.m..];
        let refusal = job::write_job(f, &self.book, &starts[..f.m], payload, &mut word);
        answer(out, b'W', refusal);
        if refusal == 0 {
            out.push(b' ');
            hex(out, &word);
        }
    }

    fn read(&self, f: &Figures, body: &[u8], out: &mut Vec<u8>) {
        let mut payload = vec![0; job::payload_len(f)];
        let refusal = job::read_job(f, &self.book, body, &mut payload);
        answer(out, b'R', refusal);
        if refusal == 0 {
            out.push(b' ');
            hex(out, &payload[..4]);
            out.push(b' ');
            hex(out, &payload[4..]);
        }
    }
}

fn answer(out: &mut Vec<u8>, letter: u8, refusal: u8) {
    let _ = write!(out, "{} {}", letter as char, refusal);
}

fn hex(out: &mut Vec<u8>, bytes: &[u8]) {
    const DIGITS: &[u8; 16] = b"0123456789ABCDEF";
    for &byte in bytes {
        out.push(DIGITS[byte as usize >> 4]);
        out.push(DIGITS[byte as usize & 15]);
    }
}

/// The closing line, after the last record: `rest` is what is left of the input, none of it where it just ended.
pub fn close(rest: &[u8], out: &mut Vec<u8>) {
    out.extend_from_slice(if rest.is_empty() {
        b"end\n"
    } else {
        b"stop 11\n"
    });
}

/// What the program prints for an input.
pub fn transfer(input: &[u8]) -> Vec<u8> {
    let mut machine = Machine::default();
    let mut out = Vec::new();
    let mut rest = input;
    while let Step::Record(len) = machine.step(rest, &mut out) {
        rest = &rest[len..];
    }
    close(rest, &mut out);
    out
}
