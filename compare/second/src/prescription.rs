//! An optician's order in the job text: its stored form, its form in memory, transposing, the spherical equivalent, and writing and reading.
//! Stored powers are eighths of a dioptre and the pupil distance is half millimetres; in memory they are dioptres and millimetres.

use crate::book::Book;
use crate::codec::placed;
use crate::figures::Figures;
use crate::job::{found_payload, has_room, number, payload_len, write_payload};

/// The bytes of one eye: kind, sphere, cylinder, axis.
const EYE: usize = 6;
/// The bytes of both eyes and the pupil distance.
pub const STORED: usize = 2 * EYE + 1;
/// The least K that has room for a job number and a prescription.
pub const LEAST_PRESCRIPTION: usize = 4 + STORED;

const EIGHTHS: f64 = 8.0;
const HALVES: f64 = 2.0;
/// The strongest power, in eighths.
const STRONGEST: i32 = 240;

#[derive(Clone, Copy, Debug, PartialEq)]
pub enum Eye {
    Plano,
    Sphere(f64),
    Toric {
        sphere: f64,
        cylinder: f64,
        axis: u8,
    },
}

#[derive(Clone, Copy, Debug, PartialEq)]
pub struct Prescription {
    pub right: Eye,
    pub left: Eye,
    pub pupil_distance: f64,
}

/// How many parts a value has, `parts` of them making one. None for minus zero, and where it isn't a whole number of them that 16 bits hold.
fn count(value: f64, parts: f64) -> Option<i16> {
    // Eight times a finite value is exact or infinite.
    let counted = value * parts;
    let whole = counted as i16;
    let same = (whole as f64).to_bits() == counted.to_bits();
    same.then_some(whole)
}

/// An eye in eighths.
#[derive(Clone, Copy)]
struct Stored {
    kind: u8,
    sphere: i16,
    cylinder: i16,
    axis: u8,
}

impl Stored {
    /// Whether the rules allow it.
    fn allowed(&self) -> bool {
        let within = |power: i32| (-STRONGEST..=STRONGEST).contains(&power);
        let (sphere, cylinder) = (self.sphere as i32, self.cylinder as i32);
        match self.kind {
            0 => sphere == 0 && cylinder == 0 && self.axis == 0,
            1 => sphere != 0 && within(sphere) && cylinder == 0 && self.axis == 0,
            2 => {
                let powers = within(sphere) && within(sphere + cylinder) && cylinder != 0;
                powers && (1..=180).contains(&self.axis)
            }
            _ => false,
        }
    }

    /// The stored form of an eye in memory. Refusal 16.
    fn of(eye: Eye) -> Result<Stored, u8> {
        let eighths = |power: f64| count(power, EIGHTHS).ok_or(16);
        let (kind, sphere, cylinder, axis) = match eye {
            Eye::Plano => (0, 0, 0, 0),
            Eye::Sphere(power) => (1, eighths(power)?, 0, 0),
            Eye::Toric {
                sphere,
                cylinder,
                axis,
            } => (2, eighths(sphere)?, eighths(cylinder)?, axis),
        };
        let stored = Stored {
            kind,
            sphere,
            cylinder,
            axis,
        };
        if stored.allowed() {
            Ok(stored)
        } else {
            Err(16)
        }
    }

    /// The eye that 6 bytes of text give. Refusal 16.
    fn from_bytes(bytes: &[u8]) -> Result<Stored, u8> {
        let stored = Stored {
            kind: bytes[0],
            sphere: i16::from_be_bytes([bytes[1], bytes[2]]),
            cylinder: i16::from_be_bytes([bytes[3], bytes[4]]),
            axis: bytes[5],
        };
        if stored.allowed() {
            Ok(stored)
        } else {
            Err(16)
        }
    }

    fn put(&self, bytes: &mut [u8]) {
        bytes[0] = self.kind;
        bytes[1..3].copy_from_slice(&self.sphere.to_be_bytes());
        bytes[3..5].copy_from_slice(&self.cylinder.to_be_bytes());
        bytes[5] = self.axis;
    }

    fn eye(&self) -> Eye {
        let dioptres = |eighths: i16| eighths as f64 / EIGHTHS;
        match self.kind {
            0 => Eye::Plano,
            1 => Eye::Sphere(dioptres(self.sphere)),
            _ => Eye::Toric {
                sphere: dioptres(self.sphere),
                cylinder: dioptres(self.cylinder),
                axis: self.axis,
            },
        }
    }
}

/// The stored bytes of a prescription. Refusal 16.
pub fn to_text(prescription: &Prescription) -> Result<[u8; STORED], u8> {
    let mut text = [0; STORED];
    Stored::of(prescription.right)?.put(&mut text[..EYE]);
    Stored::of(prescription.left)?.put(&mut text[EYE..2 * EYE]);
    let halves = count(prescription.pupil_distance, HALVES).ok_or(16)?;
    text[2 * EYE] = distance(halves).ok_or(16)? as u8;
    Ok(text)
}

/// The prescription that a job's text stores, zeros behind it. Refusal 16, also for a text that is too short.
pub fn from_text(text: &[u8]) -> Result<Prescription, u8> {
    if text.len() < STORED || text[STORED..].iter().any(|&byte| byte != 0) {
        return Err(16);
    }
    let halves = distance(text[2 * EYE] as i16).ok_or(16)?;
    Ok(Prescription {
        right: Stored::from_bytes(&text[..EYE])?.eye(),
        left: Stored::from_bytes(&text[EYE..2 * EYE])?.eye(),
        pupil_distance: halves as f64 / HALVES,
    })
}

/// A pupil distance in half millimetres, where the rules allow it.
fn distance(halves: i16) -> Option<i16> {
    (80..=160).contains(&halves).then_some(halves)
}

/// The same lens with the cylinder's sign changed. Refusal 16.
pub fn transpose(eye: Eye) -> Result<Eye, u8> {
    Stored::of(eye)?;
    Ok(match eye {
        Eye::Toric {
            sphere,
            cylinder,
            axis,
        } => Eye::Toric {
            sphere: sphere + cylinder,
            cylinder: -cylinder,
            axis: if axis > 90 { axis - 90 } else { axis + 90 },
        },
        other => other,
    })
}

/// Sphere plus half the cylinder, in dioptres; a plano has neither, and a sphere no cylinder. Refusal 16.
pub fn spherical_equivalent(eye: Eye) -> Result<f64, u8> {
    Stored::of(eye)?;
    Ok(match eye {
        Eye::Plano => 0.0,
        Eye::Sphere(power) => power,
        Eye::Toric {
            sphere, cylinder, ..
        } => sphere + cylinder / 2.0,
    })
}

/// Writes the word of an open job whose text is a prescription. Refusals 10 3 5 16 17 12 23 14.
pub fn write_prescription(
    f: &Figures,
    book: &Book,
    job: u32,
    prescription: &Prescription,
    starts: &[u16],
    word: &mut [u8],
) -> u8 {
    let len = payload_len(f);
    if !has_room(f) {
        return 10;
    }
    if starts.len() != f.m || word.len() != f.n {
        return 3;
    }
    if !placed(f, starts) {
        return 5;
    }
    let text = match to_text(prescription) {
        Ok(text) if len >= LEAST_PRESCRIPTION => text,
        _ => return 16,
    };
    if let Err(refusal) = book.require_writable(job) {
        return refusal;
    }
    let mut payload = vec![0; len];
    payload[..4].copy_from_slice(&job.to_be_bytes());
    payload[4..LEAST_PRESCRIPTION].copy_from_slice(&text);
    write_payload(f, starts, &payload, word);
    0
}

/// Reads the word of an open job whose text is a prescription: its number, and the prescription. Refusals 10 for K, 3, then those of the word reader, 10, 16,
/// 12 23 14.
pub fn read_prescription(f: &Figures, book: &Book, word: &[u8]) -> Result<(u32, Prescription), u8> {
    if !has_room(f) {
        return Err(10);
    }
    if word.len() != f.n {
        return Err(3);
    }
    let (_, payload) = found_payload(f, word)?;
    let prescription = from_text(&payload[4..])?;
    book.require_open(number(&payload))?;
    Ok((number(&payload), prescription))
}
