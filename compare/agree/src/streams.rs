//! Transfer streams at will: served and refused records of every kind, and every way to stop.

use burgzemi::{Long, Ranked};
use second::blocks::{burst_blocks, index_blocks, Layout};
use second::figures::Code;
use second::job::payload_len;
use second::{codec, index, Figures};

use crate::calls::number;
use crate::grid;
use crate::make::{
    damage, figures, found, numbers, odd_message, placement, silent_value, sound_message, spell,
    start_bytes, value,
};
use crate::rng::Rng;
use crate::sides::Numbers;
use crate::words::bad_starts_of;

/// A stream being made. It knows the figures in force, as a record's length hangs on them.
struct Stream<'a> {
    rng: &'a mut Rng,
    bytes: Vec<u8>,
    figures: Option<Figures>,
    pool: u64,
    /// Whether readings are to be of sound words only.
    sound: bool,
}

/// A stream of about `records` records.
pub fn stream(rng: &mut Rng, records: u64) -> Vec<u8> {
    let kind = rng.below(12);
    if kind == 0 {
        let len = rng.index(40);
        return rng.bytes(len);
    }
    let pool = rng.pick(&[2, 5, 70, 200]);
    let mut stream = Stream {
        rng,
        bytes: Vec::new(),
        figures: None,
        pool,
        sound: false,
    };
    if kind != 1 {
        stream.fitting();
    }
    if kind == 2 {
        (0..70).for_each(|number| stream.call(b'O', number));
    }
    for _ in 0..records {
        match kind {
            3 => stream.boundary(),
            _ => stream.record(),
        }
    }
    stream.ending(kind)
}

/// A stream of the grid's figures, all that a record can hold: the program prints T, r and k of each that fits.
pub fn figures_alone() -> Vec<u8> {
    let mut stream = Stream {
        rng: &mut Rng::new(0),
        bytes: Vec::new(),
        figures: None,
        pool: 1,
        sound: true,
    };
    grid::each(|(n, q, m, b)| {
        if n <= 65535 && (1..=256).contains(&q) && m <= 255 && b <= 65535 {
            stream.set(Numbers::Ranked((n, q, m, b)));
        }
    });
    grid::each_long(|(n, q, b)| {
        if n <= 65535 && (1..=256).contains(&q) && b <= 65535 {
            stream.set(Numbers::Long((n, q, b)));
        }
    });
    stream.bytes
}

/// A stream that the program serves to its end, for long runs and for measuring: writings and readings of open jobs.
pub fn served(rng: &mut Rng, f: &Figures, records: u64) -> Vec<u8> {
    let mut stream = Stream {
        rng,
        bytes: Vec::new(),
        figures: None,
        pool: 64,
        sound: true,
    };
    stream.set(numbers(f));
    (1..=64).for_each(|number| stream.call(b'O', number));
    for record in 0..records {
        let number = stream.rng.between(1, 64) as u32;
        match record % 2 {
            0 => stream.write(f, number, true),
            _ => stream.read(f, number),
        }
    }
    stream.bytes
}

impl Stream<'_> {
    fn head(&mut self, letter: u8) {
        self.bytes.extend([0x4C, 0x54, letter]);
    }

    fn record(&mut self) {
        let number = number(self.rng, self.pool);
        match (self.rng.below(16), self.figures) {
            (0, _) => self.fitting(),
            (1, _) => self.boundary(),
            (2..=4, _) => self.call(b'O', number),
            (5, _) => self.call(b'C', number),
            (6, _) => self.call(b'F', number),
            (7..=9, Some(f)) => {
                let right = !self.rng.once_in(4);
                self.write(&f, number, right);
            }
            (_, Some(f)) => self.read(&f, number),
            // Before any figures these stop the program, so they are kept rare.
            (15, None) if self.rng.once_in(4) => {
                let letter = self.rng.pick(b"WR");
                self.head(letter);
            }
            _ => self.call(b'O', number),
        }
    }

    /// A record of Construction A's figures, or of Construction B's.
    fn set(&mut self, numbers: Numbers) {
        let (n, q, m, b) = numbers.ranked();
        let long = numbers.code() == Code::ConstructionB;
        self.head(if long { b'L' } else { b'S' });
        self.bytes.extend((n as u16).to_be_bytes());
        self.bytes.push((q - 1) as u8);
        if !long {
            self.bytes.push(m as u8);
        }
        self.bytes.extend((b as u16).to_be_bytes());
        if let Ok(f) = numbers.try_into() {
            self.figures = Some(f);
        }
    }

    /// Construction B's figures, once in three, or Construction A's.
    fn any_figures(&mut self) -> Numbers {
        let code = match self.rng.below(3) {
            0 => Code::ConstructionB,
            _ => Code::ConstructionA,
        };
        numbers(&figures(self.rng, code))
    }

    fn fitting(&mut self) {
        let numbers = self.any_figures();
        self.set(numbers);
    }

    /// Figures at or past a boundary.
    fn boundary(&mut self) {
        let numbers = match self.any_figures() {
            Numbers::Long(f) => Numbers::Long(self.long_boundary(f)),
            f => Numbers::Ranked(self.ranked_boundary(f.ranked())),
        };
        self.set(numbers);
    }

    fn ranked_boundary(&mut self, (mut n, mut q, mut m, mut b): Ranked) -> Ranked {
        match self.rng.below(6) {
            0 => {
                n = self
                    .rng
                    .pick(&[0, 2, 3, 1024, 1025, 4095, 4096, 4097, 65535])
            }
            1 => q = self.rng.pick(&[1, 2, 3, 256]),
            2 => m = self.rng.pick(&[0, 1, 6, 7, 8, 9, 255]),
            3 => b = self.rng.pick(&[0, 1, 65535]),
            4 => b = n / (m * m.max(3)) + self.rng.below(2) as u32,
            _ => b += 1,
        }
        (n, q, m, b)
    }

    fn long_boundary(&mut self, (mut n, mut q, mut b): Long) -> Long {
        match self.rng.below(5) {
            0 => n = self.rng.pick(&[0, 2, 3, 4, 5, 6, 4095, 4096, 4097, 65535]),
            1 => q = self.rng.pick(&[1, 2, 3, 256]),
            2 => b = self.rng.pick(&[0, 1, 65535]),
            3 => b = n / 3 + self.rng.below(2) as u32,
            _ => b += 1,
        }
        (n, q, b)
    }

    fn call(&mut self, letter: u8, number: u32) {
        self.head(letter);
        self.bytes.extend(number.to_be_bytes());
    }

    fn payload(&mut self, f: &Figures, number: u32) -> Vec<u8> {
        let mut payload = self.rng.bytes(payload_len(f));
        let len = payload.len().min(4);
        payload[..len].copy_from_slice(&number.to_be_bytes()[..len]);
        payload
    }

    fn write(&mut self, f: &Figures, number: u32, right: bool) {
        let mut starts = placement(self.rng, f);
        if !right {
            starts = bad_starts_of(self.rng, f, &starts);
        }
        let payload = self.payload(f, number);
        self.head(b'W');
        self.bytes.extend(start_bytes(&starts));
        self.bytes.extend(payload);
    }

    /// A word that was written and damaged, sometimes altered besides, or any word.
    fn read(&mut self, f: &Figures, number: u32) {
        let starts = placement(self.rng, f);
        let payload = self.payload(f, number);
        let mut word = vec![0; f.n];
        let message = sound_message(f, &payload);
        codec::encode(f, &starts, &message, &mut word);
        damage(self.rng, f, &starts, &mut word);
        match self.rng.below(if self.sound { 1 } else { 13 }) {
            8 => {
                let at = self.rng.index(f.n);
                word[at] = silent_value(f.q).unwrap_or(0);
            }
            9 => {
                let at = self.rng.index(f.n);
                word[at] = self.rng.byte();
            }
            10 => {
                let message = odd_message(self.rng, f, &payload);
                codec::encode(f, &starts, &message, &mut word);
            }
            11 => word = found(self.rng, f.q, f.n),
            12 => {
                let layout = Layout::new(f);
                let index = index_blocks(f, burst_blocks(f, &layout, &starts));
                let value = value(self.rng, f, index::values(f, &layout, index));
                spell(f, &layout, index, value, &mut word);
            }
            _ => {}
        }
        self.head(b'R');
        self.bytes.extend(word);
    }

    /// Ends the stream: as it is, cut, with a wrong mark, an unknown letter, or bytes at will and more records.
    fn ending(mut self, kind: u64) -> Vec<u8> {
        let len = self.bytes.len();
        match kind {
            4 => self.bytes.truncate(len - 1 - self.rng.index(len.min(20))),
            5 => self.bytes.extend([0x4C, 0x55, b'O', 0, 0, 0, 1]),
            6 => {
                let letter = self.rng.byte();
                self.head(letter);
                self.bytes.extend([0, 0, 0, 1]);
            }
            7 => {
                let tail = self.rng.bytes(9);
                self.bytes.extend(tail);
            }
            8 => self
                .bytes
                .extend([0x4C, 0x54].iter().take(1 + self.rng.index(2))),
            _ => {}
        }
        if (5..8).contains(&kind) {
            (0..3).for_each(|_| self.record());
        }
        self.bytes
    }
}
