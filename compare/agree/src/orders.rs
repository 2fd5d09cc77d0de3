//! The making of prescriptions, and of strips that carry them.

use second::figures::Code;
use second::job::{payload_len, width};
use second::Figures;

use crate::calls::table;
use crate::eyes::dioptres;
use crate::jobs::known_number;
use crate::judge::{Answer, Judge};
use crate::make::{damage, figures, numbers, placement, start_bytes};
use crate::rng::Rng;
use crate::sides::{EyeNumbers, Numbers, PrescriptionNumbers};

/// The bytes and doubles that a reading gives.
pub const MARKS: usize = 8;
pub const POWERS: usize = 5;
/// The bytes of a prescription, and of a job number with one.
pub const TEXT: usize = 13;
pub const LEAST: usize = 17;

/// An eye in eighths: kind, sphere, cylinder and axis.
pub type Eighths = (u8, i32, i32, u8);

fn in_dioptres((kind, sphere, cylinder, axis): Eighths) -> EyeNumbers {
    (kind, dioptres(sphere), dioptres(cylinder), axis)
}

/// A prescription in eighths and half millimetres.
#[derive(Clone, Copy, Debug)]
pub struct Order {
    pub right: Eighths,
    pub left: Eighths,
    pub halves: u8,
}

impl Order {
    pub fn numbers(&self) -> PrescriptionNumbers {
        let distance = self.halves as f64 / 2.0;
        (in_dioptres(self.right), in_dioptres(self.left), distance)
    }

    pub fn text(&self) -> Vec<u8> {
        let mut text = Vec::new();
        for (kind, sphere, cylinder, axis) in [self.right, self.left] {
            text.push(kind);
            text.extend((sphere as i16).to_be_bytes());
            text.extend((cylinder as i16).to_be_bytes());
            text.push(axis);
        }
        text.push(self.halves);
        text
    }

    /// Whether a reading gave this job and prescription, to the bit.
    pub fn is(&self, job: u32, read: &Answer<f64>) -> bool {
        let (right, left, distance) = self.numbers();
        let mut marks = job.to_be_bytes().to_vec();
        marks.extend([right.0, right.3, left.0, left.3]);
        let powers = [right.1, right.2, left.1, left.2, distance];
        let mut bits = powers.iter().zip(&read.also);
        read.number == 0
            && read.out == marks
            && bits.all(|(wanted, power)| wanted.to_bits() == power.to_bits())
    }
}

/// A number from `low` to `high`, often one of both, or 0 or next to it where that lies between.
fn edged(rng: &mut Rng, low: i32, high: i32) -> i32 {
    match rng.below(6) {
        0 => low,
        1 => high,
        2 => rng.pick(&[-1, 0, 1]).clamp(low, high),
        _ => low + rng.below((high - low + 1) as u64) as i32,
    }
}

/// An eye that the rules allow.
fn eye(rng: &mut Rng) -> Eighths {
    match rng.below(4) {
        0 => (0, 0, 0, 0),
        1 => match edged(rng, -240, 240) {
            0 => (1, 8, 0, 0),
            power => (1, power, 0, 0),
        },
        _ => {
            let sphere = edged(rng, -240, 240);
            let axis = edged(rng, 1, 180) as u8;
            match edged(rng, -240 - sphere, 240 - sphere) {
                0 => (2, sphere, if sphere > 0 { -1 } else { 1 }, axis),
                cylinder => (2, sphere, cylinder, axis),
            }
        }
    }
}

fn order(rng: &mut Rng) -> Order {
    Order {
        right: eye(rng),
        left: eye(rng),
        halves: edged(rng, 80, 160) as u8,
    }
}

/// A prescription with something changed, mostly to what the rules don't allow.
pub fn odd_numbers(rng: &mut Rng, order: &Order, powers: &[f64]) -> PrescriptionNumbers {
    let (mut right, mut left, mut distance) = order.numbers();
    let eye = if rng.once_in(2) {
        &mut right
    } else {
        &mut left
    };
    match rng.below(6) {
        0 => eye.0 = rng.pick(&[0, 1, 2, 3, 4, 255]),
        1 => eye.1 = rng.pick(powers),
        2 => eye.2 = rng.pick(powers),
        3 => eye.3 = rng.pick(&[0, 1, 180, 181, 255]),
        4 => distance = rng.pick(powers),
        _ => distance = rng.below(400) as f64 / 4.0,
    }
    (right, left, distance)
}

/// Figures of this code: of any kind, or whose payload is just long enough for a prescription, or just too short.
fn roomy(rng: &mut Rng, code: Code) -> Figures {
    match rng.below(4) {
        0 => figures(rng, code),
        _ => {
            let wanted = rng.pick(&[4, 5, 6, 15, 16, 17, 17, 18, 18, 19, 25, 40]);
            with_payload(rng, wanted, code)
        }
    }
}

/// Figures of this code with a payload of so many bytes.
pub fn with_payload(rng: &mut Rng, wanted: usize, code: Code) -> Figures {
    loop {
        let q = rng.pick(&[2, 3, 4, 7, 15, 16, 17, 100, 255, 256]);
        let (m, b) = (rng.between(1, 4) as u32, rng.between(1, 4) as u32);
        let (m, b) = match code {
            Code::ConstructionB => (1, m * b),
            _ => (m, b),
        };
        // Of a longer word, runs and what tells of them leave more.
        let least = wanted * width(q);
        let fitting: Vec<Figures> = (least..least + 100)
            .filter_map(|n| Numbers::of(code, (n as u32, q, m, b)).try_into().ok())
            .filter(|f| payload_len(f) == wanted)
            .collect();
        if !fitting.is_empty() {
            return rng.pick(&fitting);
        }
    }
}

/// A strip, and what is to be written on it.
pub struct Tray {
    pub f: Figures,
    pub table: Vec<u8>,
    pub starts: Vec<u16>,
    pub job: u32,
    pub order: Order,
}

impl Tray {
    pub fn random(rng: &mut Rng, code: Code) -> Tray {
        let f = roomy(rng, code);
        Tray::of(rng, f)
    }

    /// A strip of these figures.
    pub fn of(rng: &mut Rng, f: Figures) -> Tray {
        let table = table(rng);
        Tray {
            starts: placement(rng, &f),
            job: known_number(rng, &table),
            order: order(rng),
            f,
            table,
        }
    }

    /// The payload of this job and a text, which is cut, or has zeros behind it.
    pub fn payload(&self, text: &[u8]) -> Vec<u8> {
        let mut payload = [&self.job.to_be_bytes()[..], text].concat();
        payload.resize(payload_len(&self.f), 0);
        payload
    }

    /// The word of a message, damaged inside its runs.
    pub fn word(&self, judge: &mut Judge, rng: &mut Rng, message: &[u8]) -> Vec<u8> {
        let starts = start_bytes(&self.starts);
        let mut word = judge
            .encode(numbers(&self.f), &starts, message, self.f.n)
            .out;
        damage(rng, &self.f, &self.starts, &mut word);
        word
    }

    pub fn read(&self, judge: &mut Judge, table: &[u8], word: &[u8]) -> Answer<f64> {
        judge.prescription_read(numbers(&self.f), table, word, MARKS, POWERS)
    }

    pub fn shown(&self) -> String {
        let (f, starts, order) = (&self.f, &self.starts, &self.order);
        format!("{f:?} {starts:?} number {} {order:?}", self.job)
    }
}
