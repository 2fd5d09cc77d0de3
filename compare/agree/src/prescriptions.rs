//! Jobs whose text is a prescription, written and read at will, and texts of plain jobs read as prescriptions.

use second::job::payload_len;

use crate::calls::{bad_table, number, start, table};
use crate::jobs::off;
use crate::judge::{hex, Judge, Op};
use crate::make::{
    damage, found, numbers, odd_message, silent_value, sound_message, start_bytes, wrong_len,
};
use crate::orders::{odd_numbers, Tray, LEAST, MARKS, POWERS, TEXT};
use crate::rng::Rng;
use crate::words::bad_starts_of;

/// One round for this strip; `powers` are odd ones.
pub fn round(judge: &mut Judge, rng: &mut Rng, tray: Tray, powers: &[f64]) {
    written(judge, rng, &tray);
    plain_text(judge, rng, &tray);
    oddly_spelled(judge, rng, &tray);
    refused_writing(judge, rng, &tray, powers);
    refused_reading(judge, rng, &tray);
    zero(judge, rng, tray);
}

pub fn written(judge: &mut Judge, rng: &mut Rng, tray: &Tray) {
    let f = numbers(&tray.f);
    let (starts, order) = (start_bytes(&tray.starts), tray.order.numbers());
    let written = judge.prescription_write(f, &tray.table, &starts, tray.job, order, tray.f.n);
    let right = match payload_len(&tray.f) {
        0..5 => written.number == 10,
        5..LEAST => written.number == 16,
        _ => [0, 12, 14, 17, 23].contains(&written.number),
    };
    let (inputs, what) = (|| tray.shown(), "16 is for a payload below 17 bytes");
    judge.expect(Op::PrescriptionWrite, right, &inputs, what);
    if written.number == 0 {
        read_back(judge, rng, tray, written.out);
    }
}

fn read_back(judge: &mut Judge, rng: &mut Rng, tray: &Tray, mut word: Vec<u8>) {
    let f = &tray.f;
    damage(rng, f, &tray.starts, &mut word);
    let inputs = || tray.shown();
    let read = tray.read(judge, &tray.table, &word);
    let right = tray.order.is(tray.job, &read);
    judge.expect(Op::PrescriptionRead, right, &inputs, "not what was written");
    let plain = judge.job_read(numbers(f), &tray.table, &word, payload_len(f));
    let right = plain.number == 0 && plain.out == tray.payload(&tray.order.text());
    judge.expect(Op::JobRead, right, &inputs, "not the prescription's text");
    // The same word under another table, and with a cell changed, or silent.
    tray.read(judge, &table(rng), &word);
    let at = rng.index(f.n);
    word[at] = match silent_value(f.q) {
        Some(silent) if rng.once_in(2) => silent,
        _ => rng.byte(),
    };
    tray.read(judge, &tray.table, &word);
}

/// A text that any plain job may have: bytes at will, zeros, or a prescription with a byte or two changed, in it or behind it.
fn text(rng: &mut Rng, tray: &Tray) -> Vec<u8> {
    let len = payload_len(&tray.f).saturating_sub(4);
    let mut text = match rng.below(10) {
        0 => Vec::new(),
        1 => return rng.bytes(len),
        _ => tray.order.text(),
    };
    text.resize(len, 0);
    let edges = [
        0, 1, 2, 3, 15, 16, 79, 80, 160, 161, 180, 181, 240, 241, 255,
    ];
    for _ in 0..rng.pick(&[0, 1, 1, 1, 2]) {
        // In the prescription or just behind it, or anywhere.
        let within = rng.pick(&[TEXT + 2, TEXT + 2, TEXT + 2, len]).min(len);
        if within > 0 {
            let (at, any) = (rng.index(within), rng.byte());
            let edge = rng.pick(&edges);
            text[at] = rng.pick(&[edge, edge, edge, any]);
        }
    }
    text
}

fn plain_text(judge: &mut Judge, rng: &mut Rng, tray: &Tray) {
    for _ in 0..2 {
        let payload = tray.payload(&text(rng, tray));
        let word = tray.word(judge, rng, &sound_message(&tray.f, &payload));
        let read = tray.read(judge, &tray.table, &word);
        let plain = judge.job_read(numbers(&tray.f), &tray.table, &word, payload.len());
        let inputs = || format!("{} payload {}", tray.shown(), hex(&payload));
        let right = read.number == 16 || read.number == plain.number;
        judge.expect(Op::PrescriptionRead, right, &inputs, "not as a plain job");
        let short = (5..LEAST).contains(&payload.len());
        let right = !short || read.number == 16;
        judge.expect(Op::PrescriptionRead, right, &inputs, "too short a payload");
    }
}

/// A message that just spells a payload, or just doesn't.
fn oddly_spelled(judge: &mut Judge, rng: &mut Rng, tray: &Tray) {
    let payload = tray.payload(&tray.order.text());
    let message = odd_message(rng, &tray.f, &payload);
    let word = tray.word(judge, rng, &message);
    tray.read(judge, &tray.table, &word);
}

/// One thing wrong with a writing, and sometimes several.
fn refused_writing(judge: &mut Judge, rng: &mut Rng, tray: &Tray, powers: &[f64]) {
    let mut table = tray.table.clone();
    let mut starts = start_bytes(&tray.starts);
    let (mut figures, mut order) = (numbers(&tray.f), tray.order.numbers());
    let (mut job, mut word) = (tray.job, tray.f.n);
    for _ in 0..rng.pick(&[1, 1, 2, 3]) {
        match rng.below(10) {
            0 => word = wrong_len(rng, word),
            1 => starts.resize(wrong_len(rng, starts.len()), 0),
            2 | 3 => starts = start_bytes(&bad_starts_of(rng, &tray.f, &tray.starts)),
            4 => table = bad_table(rng),
            5 => figures = off(rng, figures),
            6 => job = number(rng, 70),
            _ => order = odd_numbers(rng, &tray.order, powers),
        }
    }
    judge.prescription_write(figures, &table, &starts, job, order, word);
}

/// One thing wrong with a reading, and sometimes several.
fn refused_reading(judge: &mut Judge, rng: &mut Rng, tray: &Tray) {
    let f = &tray.f;
    let mut table = tray.table.clone();
    let mut word = match rng.below(3) {
        0 => found(rng, f.q, f.n),
        _ => {
            let payload = tray.payload(&text(rng, tray));
            tray.word(judge, rng, &sound_message(f, &payload))
        }
    };
    let (mut marks, mut powers, mut figures) = (MARKS, POWERS, numbers(f));
    for _ in 0..rng.pick(&[0, 1, 1, 2, 3]) {
        match rng.below(6) {
            0 => word.resize(wrong_len(rng, word.len()), 0),
            1 => marks = wrong_len(rng, marks),
            2 => powers = wrong_len(rng, powers),
            3 => table = bad_table(rng),
            4 if !word.is_empty() => {
                let at = rng.index(word.len());
                word[at] = rng.byte();
            }
            _ => figures = off(rng, figures),
        }
    }
    judge.prescription_read(figures, &table, &word, marks, powers);
}

/// Number 0 under a table that lacks it or holds it alone: it is never written, and read where it is open.
fn zero(judge: &mut Judge, rng: &mut Rng, tray: Tray) {
    if payload_len(&tray.f) < LEAST {
        return;
    }
    let tray = Tray {
        job: 0,
        table: start(rng),
        ..tray
    };
    let f = numbers(&tray.f);
    let (starts, order) = (start_bytes(&tray.starts), tray.order.numbers());
    let written = judge.prescription_write(f, &tray.table, &starts, 0, order, tray.f.n);
    let inputs = || tray.shown();
    let right = written.number == 17;
    judge.expect(Op::PrescriptionWrite, right, &inputs, "0 is no job");
    let message = sound_message(&tray.f, &tray.payload(&tray.order.text()));
    let word = tray.word(judge, rng, &message);
    let read = tray.read(judge, &tray.table, &word);
    let right = match tray.table.chunks_exact(5).map(|slot| slot[0]).max() {
        Some(1) => tray.order.is(0, &read),
        Some(2 | 3 | 5) => read.number == 12,
        Some(4) => read.number == 23,
        _ => read.number == 14,
    };
    let what = "not what the table says of 0";
    judge.expect(Op::PrescriptionRead, right, &inputs, what);
}
