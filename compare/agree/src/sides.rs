//! The two implementations behind one set of calls on plain numbers and bytes.

use burgzemi::{Long, Ranked};
use second::figures::Code;
use second::{raw, Figures};

pub use second::raw::{EyeNumbers, PrescriptionNumbers};

/// The figures of any code, for both sides.
#[derive(Clone, Copy, PartialEq, Eq, Debug)]
pub enum Numbers {
    Ranked(Ranked),
    Long(Long),
    Larsson(Ranked),
}

impl Numbers {
    /// The figures of a code, of which Construction B's have no m.
    pub fn of(code: Code, (n, q, m, b): Ranked) -> Numbers {
        match code {
            Code::ConstructionA => Numbers::Ranked((n, q, m, b)),
            Code::ConstructionB => Numbers::Long((n, q, b)),
            Code::Larsson => Numbers::Larsson((n, q, m, b)),
        }
    }

    pub fn code(self) -> Code {
        match self {
            Numbers::Ranked(_) => Code::ConstructionA,
            Numbers::Long(_) => Code::ConstructionB,
            Numbers::Larsson(_) => Code::Larsson,
        }
    }

    /// n, q, m, which is 1 for Construction B, and b.
    pub fn ranked(self) -> Ranked {
        match self {
            Numbers::Ranked(numbers) | Numbers::Larsson(numbers) => numbers,
            Numbers::Long((n, q, b)) => (n, q, 1, b),
        }
    }
}

impl From<Numbers> for burgzemi::Numbers {
    fn from(numbers: Numbers) -> burgzemi::Numbers {
        match numbers {
            Numbers::Ranked(numbers) => numbers.into(),
            Numbers::Long(numbers) => numbers.into(),
            Numbers::Larsson((n, q, m, b)) => burgzemi::Larsson(n, q, m, b).into(),
        }
    }
}

impl TryFrom<Numbers> for Figures {
    type Error = u8;

    fn try_from(numbers: Numbers) -> Result<Figures, u8> {
        match numbers {
            Numbers::Ranked(numbers) => numbers.try_into(),
            Numbers::Long(numbers) => numbers.try_into(),
            Numbers::Larsson((n, q, m, b)) => raw::Larsson(n, q, m, b).try_into(),
        }
    }
}

/// A call on a number of a table.
pub type TableCall = fn(&mut [u8], u32) -> u8;
type Lanes = fn(Numbers, u32, &[u8], &mut [u8]) -> u8;
/// A move of a job to the other code: figures, table, strip and moved strip.
pub type Move = fn(Ranked, &[u8], &[u8], &mut [u8]) -> u8;
type JobWrite = fn(Numbers, &[u8], &[u8], &[u8], &mut [u8]) -> u8;
type PrescriptionRead = fn(Numbers, &[u8], &[u8], &mut [u8], &mut [f64]) -> u8;
type PrescriptionWrite = fn(Numbers, &[u8], &[u8], u32, PrescriptionNumbers, &mut [u8]) -> u8;

pub struct Side {
    pub name: &'static str,
    pub figures: fn(Numbers, &mut [u64]) -> u8,
    pub encode: fn(Numbers, &[u8], &[u8], &mut [u8]) -> u8,
    pub decode: fn(Numbers, &[u8], &mut [u8], &mut [u8]) -> u8,
    pub verify: fn(Numbers, &[u8], &[u8], &[u8]) -> u8,
    pub cover: fn(Numbers, &[u8], &mut [u8]) -> u8,
    pub interleave: Lanes,
    pub deinterleave: Lanes,
    pub open: TableCall,
    pub cancel: TableCall,
    pub finish: TableCall,
    pub reinstate: TableCall,
    pub hold: TableCall,
    pub release: TableCall,
    pub job_write: JobWrite,
    pub job_read: fn(Numbers, &[u8], &[u8], &mut [u8]) -> u8,
    pub move_to_a: Move,
    pub move_to_larsson: Move,
    pub transpose: fn(EyeNumbers, &mut [u8], &mut [f64]) -> u8,
    pub spherical_equivalent: fn(EyeNumbers, &mut [f64]) -> u8,
    pub prescription_write: PrescriptionWrite,
    pub prescription_read: PrescriptionRead,
}

impl Side {
    /// The call of a letter: O, C and F of records, and I, H and U for those that have none.
    pub fn call(&self, letter: u8) -> TableCall {
        match letter {
            b'O' => self.open,
            b'C' => self.cancel,
            b'F' => self.finish,
            b'I' => self.reinstate,
            b'H' => self.hold,
            b'U' => self.release,
            _ => panic!("no call has the letter {letter}"),
        }
    }
}

pub const PROVED: Side = Side {
    name: "library",
    figures: burgzemi::raw::figures,
    encode: burgzemi::raw::encode,
    decode: burgzemi::raw::decode,
    verify: burgzemi::raw::verify,
    cover: burgzemi::raw::cover,
    interleave: burgzemi::raw::interleave,
    deinterleave: burgzemi::raw::deinterleave,
    open: burgzemi::raw::open,
    cancel: burgzemi::raw::cancel,
    finish: burgzemi::raw::finish,
    reinstate: burgzemi::raw::reinstate,
    hold: burgzemi::raw::hold,
    release: burgzemi::raw::release,
    job_write: burgzemi::raw::job_write,
    job_read: burgzemi::raw::job_read,
    move_to_a: burgzemi::raw::move_to_a,
    move_to_larsson: burgzemi::raw::move_to_larsson,
    transpose: burgzemi::raw::transpose,
    spherical_equivalent: burgzemi::raw::spherical_equivalent,
    prescription_write: burgzemi::raw::prescription_write,
    prescription_read: burgzemi::raw::prescription_read,
};

pub const SECOND: Side = Side {
    name: "second",
    figures: second::raw::figures,
    encode: second::raw::encode,
    decode: second::raw::decode,
    verify: second::raw::verify,
    cover: second::raw::cover,
    interleave: second::raw::interleave,
    deinterleave: second::raw::deinterleave,
    open: second::raw::open,
    cancel: second::raw::cancel,
    finish: second::raw::finish,
    reinstate: second::raw::reinstate,
    hold: second::raw::hold,
    release: second::raw::release,
    job_write: second::raw::job_write,
    job_read: second::raw::job_read,
    move_to_a: second::raw::move_to_a,
    move_to_larsson: second::raw::move_to_larsson,
    transpose: second::raw::transpose,
    spherical_equivalent: second::raw::spherical_equivalent,
    prescription_write: second::raw::prescription_write,
    prescription_read: second::raw::prescription_read,
};
