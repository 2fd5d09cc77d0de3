//! Prescriptions on strips, one after another: every pair of a sphere and a cylinder, and every short payload.

use second::figures::Code;
use second::Figures;

use crate::calls::TABLE;
use crate::eyes::allowed;
use crate::judge::{Judge, Op};
use crate::make::{numbers, sound_message, start_bytes};
use crate::orders::{with_payload, Eighths, Order, Tray, LEAST};
use crate::prescriptions::written;
use crate::rng::Rng;
use crate::uses::{cells, Use};
use crate::words::Strip;

/// Number 7 open, in the third slot.
fn seven_open() -> Vec<u8> {
    let mut table = vec![0; TABLE];
    (table[10], table[14]) = (1, 7);
    table
}

/// Payloads of 1 to 40 bytes: no job below 5, no prescription below 17.
pub fn payload_lengths(judge: &mut Judge, rng: &mut Rng, code: Code) {
    for len in 1..=40 {
        let f = with_payload(rng, len, code);
        let tray = Tray {
            table: seven_open(),
            job: 7,
            ..Tray::of(rng, f)
        };
        written(judge, rng, &tray);
        let message = sound_message(&tray.f, &tray.payload(&tray.order.text()));
        let word = tray.word(judge, rng, &message);
        let read = tray.read(judge, &tray.table, &word);
        let right = match len {
            0..5 => read.number == 10,
            5..LEAST => read.number == 16,
            _ => tray.order.is(7, &read),
        };
        let inputs = || tray.shown();
        judge.expect(Op::PrescriptionRead, right, &inputs, "by the payload alone");
    }
}

/// A strip whose payload is just long enough, with the cells that hold it.
struct Blank {
    tray: Tray,
    word: Vec<u8>,
    cells: Vec<usize>,
}

impl Blank {
    fn new(judge: &mut Judge, rng: &mut Rng) -> Blank {
        let f = Figures::new(21, 256, 1, 2).expect("these figures fit");
        let (starts, message) = (vec![6], vec![0; LEAST]);
        let word = judge
            .encode(numbers(&f), &start_bytes(&starts), &message, f.n)
            .out;
        let strip = Strip {
            f,
            starts,
            message,
            word,
        };
        Blank {
            cells: cells(&strip, Use::Message),
            word: strip.word,
            tray: Tray {
                table: seven_open(),
                starts: strip.starts,
                job: 7,
                ..Tray::of(rng, f)
            },
        }
    }
}

/// Every sphere and cylinder from -500 to 500 eighths, written, and read from their text, with axes in turn and in either eye.
pub fn every_toric(judge: &mut Judge, rng: &mut Rng) {
    let blank = Blank::new(judge, rng);
    for sphere in -500..=500i32 {
        for cylinder in -500..=500 {
            let axis = 1 + (11 * sphere + 7 * cylinder).rem_euclid(180) as u8;
            stored(judge, &blank, (2, sphere, cylinder, axis));
        }
    }
    // Counts whose sum, or one of whose bytes, is right by itself.
    let high = [
        -32768, -32767, -32528, -512, -257, -256, -255, -16, 16, 255, 256, 257, 512, 32528, 32767,
    ];
    for sphere in high {
        for cylinder in high {
            stored(judge, &blank, (2, sphere, cylinder, 90));
            stored(judge, &blank, (3, sphere, cylinder, 90));
        }
    }
}

/// Writes an eye in eighths, reads its text, and sees that the rules decide both.
fn stored(judge: &mut Judge, blank: &Blank, eye: Eighths) {
    let (kind, sphere, cylinder, axis) = eye;
    let other = (1, -10, 0, 0);
    let (right, left) = match sphere % 2 {
        0 => (eye, other),
        _ => (other, eye),
    };
    let (tray, halves) = (&blank.tray, 125);
    let order = Order {
        right,
        left,
        halves,
    };
    let mut word = blank.word.clone();
    for (&cell, byte) in blank.cells.iter().zip(tray.payload(&order.text())) {
        word[cell] = byte;
    }
    let (f, starts) = (numbers(&tray.f), start_bytes(&tray.starts));
    let written = judge.prescription_write(f, &tray.table, &starts, 7, order.numbers(), tray.f.n);
    let read = tray.read(judge, &tray.table, &word);
    let inputs = || format!("{order:?}");
    let right = if kind == 2 && allowed(sphere, cylinder, axis) {
        written.number == 0 && written.out == word && order.is(7, &read)
    } else {
        written.number == 16 && read.number == 16
    };
    judge.expect(
        Op::PrescriptionRead,
        right,
        &inputs,
        "not as the rules have it",
    );
}
