//! The figures that hold at the desk, of any code, and the library's calls on them.

use std::fmt;

use burgzemi::{Larsson, Long, Prescription, Refusal, Table};

use crate::trouble::Trouble;

/// Figures that fit. For Construction B m is 1.
#[derive(Clone, Copy)]
pub struct Figures {
    pub numbers: Numbers,
    code: Code,
}

#[derive(Clone, Copy, PartialEq, Eq, Debug)]
pub struct Numbers {
    pub n: usize,
    pub q: usize,
    pub m: usize,
    pub b: usize,
}

#[derive(Clone, Copy)]
enum Code {
    A(burgzemi::Figures),
    B(burgzemi::Figures<Long>),
    Larsson(burgzemi::Figures<Larsson>),
}

#[derive(Clone, Copy, PartialEq, Eq, Debug)]
pub enum CodeName {
    A,
    B,
    Larsson,
}

/// What the word reader hands out.
pub struct Reading {
    pub starts: Vec<u16>,
    pub message: Vec<u8>,
}

/// Makes a library call with the figures of whichever code holds.
macro_rules! of_any {
    ($self:ident, $f:ident => $call:expr) => {
        match &$self.code {
            Code::A($f) => $call,
            Code::B($f) => $call,
            Code::Larsson($f) => $call,
        }
    };
}

impl Figures {
    fn with(numbers: [u32; 4], code: Code) -> Figures {
        let [n, q, m, b] = numbers.map(|number| number as usize);
        Figures {
            numbers: Numbers { n, q, m, b },
            code,
        }
    }

    pub fn a(n: u32, q: u32, m: u32, b: u32) -> Result<Figures, Refusal> {
        Ok(Figures::with(
            [n, q, m, b],
            Code::A(burgzemi::Figures::new(n, q, m, b)?),
        ))
    }

    pub fn b(n: u32, q: u32, b: u32) -> Result<Figures, Refusal> {
        Ok(Figures::with(
            [n, q, 1, b],
            Code::B(burgzemi::Figures::long(n, q, b)?),
        ))
    }

    pub fn larsson(n: u32, q: u32, m: u32, b: u32) -> Result<Figures, Refusal> {
        Ok(Figures::with(
            [n, q, m, b],
            Code::Larsson(burgzemi::Figures::larsson(n, q, m, b)?),
        ))
    }

    pub fn code(&self) -> CodeName {
        match self.code {
            Code::A(_) => CodeName::A,
            Code::B(_) => CodeName::B,
            Code::Larsson(_) => CodeName::Larsson,
        }
    }

    pub fn message_len(&self) -> usize {
        of_any!(self, f => f.message_len())
    }

    pub fn payload_len(&self) -> usize {
        of_any!(self, f => f.payload_len())
    }

    pub fn encode(&self, starts: &[u16], message: &[u8]) -> Result<Vec<u8>, Refusal> {
        let mut word = vec![0; self.numbers.n];
        of_any!(self, f => burgzemi::encode(f, starts, message, &mut word))?;
        Ok(word)
    }

    pub fn decode(&self, word: &[u8]) -> Result<Reading, Refusal> {
        let mut message = vec![0; self.message_len()];
        let starts = of_any!(self, f => burgzemi::decode(f, word, &mut message))?.to_vec();
        Ok(Reading { starts, message })
    }

    /// Whether a word holds this message outside these bursts.
    pub fn verify(&self, starts: &[u16], message: &[u8], word: &[u8]) -> Result<bool, Refusal> {
        of_any!(self, f => burgzemi::verify(f, starts, message, word))
    }

    pub fn cover(&self, map: &[u8]) -> Result<Vec<u16>, Refusal> {
        Ok(of_any!(self, f => burgzemi::cover(f, map))?.to_vec())
    }

    pub fn job_write(
        &self,
        table: &Table,
        starts: &[u16],
        payload: &[u8],
    ) -> Result<Vec<u8>, Refusal> {
        let mut word = vec![0; self.numbers.n];
        of_any!(self, f => burgzemi::job_write(f, table, starts, payload, &mut word))?;
        Ok(word)
    }

    pub fn job_read(&self, table: &Table, word: &[u8]) -> Result<Vec<u8>, Refusal> {
        let mut payload = vec![0; self.payload_len()];
        of_any!(self, f => burgzemi::job_read(f, table, word, &mut payload))?;
        Ok(payload)
    }

    pub fn prescription_write(
        &self,
        table: &Table,
        starts: &[u16],
        number: u32,
        order: &Prescription,
    ) -> Result<Vec<u8>, Refusal> {
        let mut word = vec![0; self.numbers.n];
        of_any!(self, f => burgzemi::prescription_write(f, table, starts, number, order, &mut word))?;
        Ok(word)
    }

    pub fn prescription_read(
        &self,
        table: &Table,
        word: &[u8],
    ) -> Result<(u32, Prescription), Refusal> {
        of_any!(self, f => burgzemi::prescription_read(f, table, word))
    }

    /// Lays words side by side that stand one after another.
    pub fn interleave(&self, depth: u32, words: &[u8]) -> Result<Vec<u8>, Refusal> {
        let mut strip = vec![0; self.lanes_len(depth)];
        of_any!(self, f => burgzemi::interleave(f, depth, words, &mut strip))?;
        Ok(strip)
    }

    /// Takes such a strip apart into words that stand one after another.
    pub fn deinterleave(&self, depth: u32, strip: &[u8]) -> Result<Vec<u8>, Refusal> {
        let mut words = vec![0; self.lanes_len(depth)];
        of_any!(self, f => burgzemi::deinterleave(f, depth, strip, &mut words))?;
        Ok(words)
    }

    /// No more room than for the largest depth is made: the library refuses a larger one first.
    fn lanes_len(&self, depth: u32) -> usize {
        depth.min(burgzemi::MAX_DEPTH) as usize * self.numbers.n
    }

    /// Moves a job to the other of Construction A and the Larsson code.
    pub fn move_strip(&self, table: &Table, strip: &[u8]) -> Result<(CodeName, Vec<u8>), Trouble> {
        let mut moved = vec![0; self.numbers.n];
        let code = match &self.code {
            Code::A(f) => {
                burgzemi::move_to_larsson(f, table, strip, &mut moved)?;
                CodeName::Larsson
            }
            Code::Larsson(f) => {
                burgzemi::move_to_a(f, table, strip, &mut moved)?;
                CodeName::A
            }
            Code::B(_) => {
                return Err(Trouble::Unserved(
                    "Construction B figures hold, and strips with one long burst are not moved"
                        .into(),
                ))
            }
        };
        Ok((code, moved))
    }
}

impl fmt::Display for CodeName {
    fn fmt(&self, f: &mut fmt::Formatter<'_>) -> fmt::Result {
        f.write_str(match self {
            CodeName::A => "Construction A",
            CodeName::B => "Construction B",
            CodeName::Larsson => "Larsson code",
        })
    }
}

impl fmt::Display for Figures {
    fn fmt(&self, f: &mut fmt::Formatter<'_>) -> fmt::Result {
        let Numbers { n, q, m, b } = self.numbers;
        write!(f, "{}: n {n}, q {q}, m {m}, b {b}", self.code())
    }
}
