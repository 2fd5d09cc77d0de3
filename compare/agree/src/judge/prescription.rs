//! The prescription calls.

use super::{all, Answer, Judge, Op};
use crate::lent::Lent;
use crate::orders::{MARKS, POWERS};
use crate::sides::{EyeNumbers, Numbers, PrescriptionNumbers};

impl Judge {
    /// Kind and axis come as `out`, sphere and cylinder as `also`.
    pub fn transpose(&mut self, eye: EyeNumbers, marks: usize, powers: usize) -> Answer<f64> {
        let inputs = || format!("{eye:?} marks {marks} powers {powers}");
        let lent = (Lent::new(marks), Lent::new(powers));
        self.both(
            Op::Transpose.into(),
            lent.0,
            lent.1,
            &inputs,
            &|side, out, also| (side.transpose)(eye, out, also),
        )
    }

    /// The power comes as `also`.
    pub fn spherical_equivalent(&mut self, eye: EyeNumbers, power: usize) -> Answer<f64> {
        let inputs = || format!("{eye:?} power {power}");
        self.both(
            Op::SphericalEquivalent.into(),
            Lent::new(0),
            Lent::new(power),
            &inputs,
            &|side, _, also| (side.spherical_equivalent)(eye, also),
        )
    }

    pub fn prescription_write(
        &mut self,
        f: Numbers,
        table: &[u8],
        starts: &[u8],
        number: u32,
        prescription: PrescriptionNumbers,
        word: usize,
    ) -> Answer {
        let bytes = [table, starts];
        let inputs = || {
            let bytes = all(&bytes);
            format!("{f:?} table, starts {bytes} number {number} {prescription:?} word {word}")
        };
        let kind = Op::PrescriptionWrite.under(f);
        let answer = self.both(
            kind,
            Lent::new(word),
            Lent::new(0),
            &inputs,
            &|side, out, _| (side.prescription_write)(f, table, starts, number, prescription, out),
        );
        self.tally.count_job(kind, f, table, answer.number);
        answer
    }

    /// The number, kinds and axes come as `out`, the powers and the pupil distance as `also`.
    pub fn prescription_read(
        &mut self,
        f: Numbers,
        table: &[u8],
        word: &[u8],
        marks: usize,
        powers: usize,
    ) -> Answer<f64> {
        let bytes = [table, word];
        let inputs = || {
            let bytes = all(&bytes);
            format!("{f:?} table, word {bytes} marks {marks} powers {powers}")
        };
        let lent = (Lent::new(marks), Lent::new(powers));
        let kind = Op::PrescriptionRead.under(f);
        let answer = self.both(kind, lent.0, lent.1, &inputs, &|side, out, also| {
            (side.prescription_read)(f, table, word, out, also)
        });
        self.tally.count_job(kind, f, table, answer.number);
        answer
    }

    /// What word read, job read and prescription read answer of a word with one run, whose symbols are bytes.
    pub fn readers(&mut self, f: Numbers, table: &[u8], word: &[u8], len: usize) -> [u8; 3] {
        [
            self.decode(f, word, len, 2).number,
            self.job_read(f, table, word, len).number,
            self.prescription_read(f, table, word, MARKS, POWERS).number,
        ]
    }
}
