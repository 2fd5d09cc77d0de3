//! Burgzemi for Rust: the proved writer, reader, planner, job table and prescriptions, called safely through the library's C interface.
//!
//! ```
//! use burgzemi::{Figures, Refusal, Table};
//!
//! let strip = Figures::new(15, 256, 1, 2)?;
//! let mut jobs = Table::new();
//! jobs.open(7)?;
//!
//! let mut word = [0; 15];
//! burgzemi::job_write(&strip, &jobs, &[6], b"\0\0\0\x07ABCDEFG", &mut word)?;
//! word[6] = 0xFF; // damage inside the run
//!
//! let mut payload = [0; 11];
//! burgzemi::job_read(&strip, &jobs, &word, &mut payload)?;
//! assert_eq!(&payload[4..], b"ABCDEFG");
//!
//! jobs.cancel(7)?;
//! assert_eq!(burgzemi::job_read(&strip, &jobs, &word, &mut payload), Err(Refusal::CANCELLED));
//! # Ok::<(), Refusal>(())
//! ```
//!
//! A strip with one run that is longer than this takes has the figures of Construction B. Every call but a move takes them.
//!
//! ```
//! use burgzemi::{Figures, Refusal};
//!
//! assert_eq!(Figures::new(20, 2, 1, 5), Err(Refusal::UNFIT));
//! let strip = Figures::long(20, 2, 5)?;
//! let mut word = [0; 20];
//! burgzemi::encode(&strip, &[9], &[1; 10], &mut word)?;
//! word[9..14].fill(2); // cells without a reading, inside the run
//!
//! let mut message = [0; 10];
//! assert_eq!(burgzemi::decode(&strip, &word, &mut message)?[..], [9]);
//! assert_eq!(message, [1; 10]);
//! # Ok::<(), Refusal>(())
//! ```
//!
//! An older tray has the figures of the Larsson code. Every call takes these as well, but for the move from Construction A.
//!
//! ```
//! use burgzemi::{Figures, Refusal};
//!
//! let strip = Figures::larsson(20, 2, 1, 3)?;
//! let mut word = [0; 20];
//! burgzemi::encode(&strip, &[9], &[1; 7], &mut word)?;
//! word[9..12].fill(2); // cells without a reading, inside the run
//!
//! let mut message = [0; 7];
//! assert_eq!(burgzemi::decode(&strip, &word, &mut message)?[..], [9]);
//! assert_eq!(message, [1; 7]);
//! # Ok::<(), Refusal>(())
//! ```
//!
//! Its jobs are written and read like any others.
//!
//! ```
//! use burgzemi::{Figures, Refusal, Table};
//!
//! let older = Figures::larsson(15, 256, 1, 2)?;
//! let mut jobs = Table::new();
//! jobs.open(7)?;
//!
//! let mut word = [0; 15];
//! burgzemi::job_write(&older, &jobs, &[6], b"\0\0\0\x07ABCDEFG", &mut word)?;
//! word[6..8].fill(0xFF); // damage inside the run
//!
//! let mut payload = [0; 11];
//! burgzemi::job_read(&older, &jobs, &word, &mut payload)?;
//! assert_eq!(&payload[4..], b"ABCDEFG");
//! # Ok::<(), Refusal>(())
//! ```
//!
//! They can be moved to a strip of Construction A with the same figures, and back.
//!
//! ```
//! use burgzemi::{Figures, Refusal, Table};
//!
//! let older = Figures::larsson(15, 256, 1, 2)?;
//! let newer = Figures::new(15, 256, 1, 2)?;
//! let mut jobs = Table::new();
//! jobs.open(7)?;
//!
//! let (mut strip, mut moved, mut back) = ([0; 15], [0; 15], [0; 15]);
//! burgzemi::job_write(&older, &jobs, &[6], b"\0\0\0\x07ABCDEFG", &mut strip)?;
//! burgzemi::move_to_a(&older, &jobs, &strip, &mut moved)?;
//! let mut payload = [0; 11];
//! burgzemi::job_read(&newer, &jobs, &moved, &mut payload)?;
//! assert_eq!(&payload[4..], b"ABCDEFG");
//!
//! burgzemi::move_to_larsson(&newer, &jobs, &moved, &mut back)?;
//! assert_eq!(back, strip);
//! # Ok::<(), Refusal>(())
//! ```

mod prescription;
pub mod raw;
mod refusal;
mod table;

use std::ops::Deref;

pub use prescription::{prescription_read, prescription_write, Eye, Prescription};
pub use raw::{Larsson, Long, Numbers, Ranked};
pub use refusal::Refusal;
pub use table::Table;

/// The longest word.
pub const MAX_WORD: usize = 4096;
/// The most runs that a placement has.
pub const MAX_RUNS: usize = 8;
/// The most words that a strip has side by side.
pub const MAX_DEPTH: u32 = 16;

/// Figures that fit, with the lengths that follow from them: Construction A's, `Figures`, Construction B's, `Figures<Long>`, or the Larsson code's,
/// `Figures<Larsson>`.
#[derive(Clone, Copy, PartialEq, Eq, Debug)]
pub struct Figures<N = Ranked> {
    numbers: N,
    message_len: usize,
    payload_len: usize,
}

/// The numbers that figures of one code are.
pub trait Code: Copy + Into<Numbers> {}

impl Code for Ranked {}
impl Code for Long {}
impl Code for Larsson {}

impl Figures {
    /// n symbols of a word, each below q, and m runs of b positions.
    pub fn new(n: u32, q: u32, m: u32, b: u32) -> Result<Figures, Refusal> {
        Figures::judged((n, q, m, b))
    }
}

impl Figures<Long> {
    /// n symbols of a word, each below q, and one run of b positions, up to a third of the word.
    pub fn long(n: u32, q: u32, b: u32) -> Result<Figures<Long>, Refusal> {
        Figures::judged((n, q, b))
    }
}

impl Figures<Larsson> {
    /// n symbols of a word, each below q, and m runs of b positions, on an older tray.
    pub fn larsson(n: u32, q: u32, m: u32, b: u32) -> Result<Figures<Larsson>, Refusal> {
        Figures::judged(Larsson(n, q, m, b))
    }
}

impl<N: Code> Figures<N> {
    fn judged(numbers: N) -> Result<Figures<N>, Refusal> {
        let mut given = [0; 4];
        Refusal::of(raw::figures(numbers, &mut given))?;
        let [_, _, message_len, payload_len] = given.map(|figure| figure as usize);
        Ok(Figures {
            numbers,
            message_len,
            payload_len,
        })
    }

    /// n.
    pub fn word_len(&self) -> usize {
        match self.numbers.into() {
            Numbers::Ranked((n, ..))
            | Numbers::Long((n, ..))
            | Numbers::Larsson(Larsson(n, ..)) => n as usize,
        }
    }

    /// m, which is 1 for Construction B.
    pub fn runs(&self) -> usize {
        match self.numbers.into() {
            Numbers::Ranked((_, _, m, _)) | Numbers::Larsson(Larsson(_, _, m, _)) => m as usize,
            Numbers::Long(_) => 1,
        }
    }

    /// k.
    pub fn message_len(&self) -> usize {
        self.message_len
    }

    /// K, how many bytes a job's number and text have.
    pub fn payload_len(&self) -> usize {
        self.payload_len
    }
}

/// The starts of a placement's runs, ascending.
#[derive(Clone, Copy, PartialEq, Eq, Debug)]
pub struct Placement {
    starts: [u16; MAX_RUNS],
    count: usize,
}

impl Placement {
    fn of(bytes: &[u8]) -> Placement {
        let mut starts = [0; MAX_RUNS];
        for (start, pair) in starts.iter_mut().zip(bytes.chunks_exact(2)) {
            *start = u16::from_be_bytes([pair[0], pair[1]]);
        }
        Placement {
            starts,
            count: bytes.len() / 2,
        }
    }
}

impl Deref for Placement {
    type Target = [u16];

    fn deref(&self) -> &[u16] {
        &self.starts[..self.count]
    }
}

/// Starts as the C calls take them. More than a placement has are passed as one more than that, a length that all figures refuse.
struct StartBytes {
    bytes: [u8; 2 * MAX_RUNS + 2],
    len: usize,
}

impl StartBytes {
    fn of(starts: &[u16]) -> StartBytes {
        let mut bytes = [0; 2 * MAX_RUNS + 2];
        for (pair, start) in bytes.chunks_exact_mut(2).zip(starts) {
            pair.copy_from_slice(&start.to_be_bytes());
        }
        StartBytes {
            bytes,
            len: 2 * starts.len().min(MAX_RUNS + 1),
        }
    }

    fn get(&self) -> &[u8] {
        &self.bytes[..self.len]
    }
}

/// Writes the word of a placement and a message.
pub fn encode<N: Code>(
    f: &Figures<N>,
    starts: &[u16],
    message: &[u8],
    word: &mut [u8],
) -> Result<(), Refusal> {
    Refusal::of(raw::encode(
        f.numbers,
        StartBytes::of(starts).get(),
        message,
        word,
    ))
}

/// Reads a found word: its message, and the placement as the answer. A value q, for q up to 255, is a cell without a reading, which the runs may have.
pub fn decode<N: Code>(
    f: &Figures<N>,
    word: &[u8],
    message: &mut [u8],
) -> Result<Placement, Refusal> {
    let mut starts = [0; 2 * MAX_RUNS];
    let starts = &mut starts[..2 * f.runs()];
    Refusal::of(raw::decode(f.numbers, word, message, starts))?;
    Ok(Placement::of(starts))
}

/// Whether a word from elsewhere agrees with the word of a placement and a message at every position outside the runs, where a cell without a
/// reading agrees with nothing. What the runs hold doesn't matter.
pub fn verify<N: Code>(
    f: &Figures<N>,
    starts: &[u16],
    message: &[u8],
    word: &[u8],
) -> Result<bool, Refusal> {
    let starts = StartBytes::of(starts);
    match raw::verify(f.numbers, starts.get(), message, word) {
        raw::DIFFERS => Ok(false),
        answer => Refusal::of(answer).map(|()| true),
    }
}

/// The placement of least rank that covers every cell that is 1 in the map.
pub fn cover<N: Code>(f: &Figures<N>, map: &[u8]) -> Result<Placement, Refusal> {
    let mut starts = [0; 2 * MAX_RUNS];
    let starts = &mut starts[..2 * f.runs()];
    Refusal::of(raw::cover(f.numbers, map, starts))?;
    Ok(Placement::of(starts))
}

/// Lays `depth` words, which stand one after another, side by side: cell t of the strip is symbol t / depth of word t mod depth. Where at most m
/// stretches of the strip are worn, each at most depth * b cells, each word's map can be covered.
pub fn interleave<N: Code>(
    f: &Figures<N>,
    depth: u32,
    words: &[u8],
    strip: &mut [u8],
) -> Result<(), Refusal> {
    Refusal::of(raw::interleave(f.numbers, depth, words, strip))
}

/// Takes a found strip of words side by side apart, into words that stand one after another. A value q is a cell without a reading, as in `decode`.
pub fn deinterleave<N: Code>(
    f: &Figures<N>,
    depth: u32,
    strip: &[u8],
    words: &mut [u8],
) -> Result<(), Refusal> {
    Refusal::of(raw::deinterleave(f.numbers, depth, strip, words))
}

/// Writes the word of an open job; the payload is its number, high byte first and never 0, and its text.
pub fn job_write<N: Code>(
    f: &Figures<N>,
    table: &Table,
    starts: &[u16],
    payload: &[u8],
    word: &mut [u8],
) -> Result<(), Refusal> {
    let starts = StartBytes::of(starts);
    Refusal::of(raw::job_write(
        f.numbers,
        table.as_bytes(),
        starts.get(),
        payload,
        word,
    ))
}

/// Reads the found word of an open job into its payload. A value q is a cell without a reading, as in `decode`.
pub fn job_read<N: Code>(
    f: &Figures<N>,
    table: &Table,
    word: &[u8],
    payload: &mut [u8],
) -> Result<(), Refusal> {
    Refusal::of(raw::job_read(f.numbers, table.as_bytes(), word, payload))
}

/// Moves the found word of an open job from an older tray's strip to one of Construction A, whose word comes as `moved`. Figures, placement, number and text
/// are the same; the longer payload ends in zeros. The figures must fit Construction A too. A value q is a cell without a reading, as in `decode`.
pub fn move_to_a(
    f: &Figures<Larsson>,
    table: &Table,
    strip: &[u8],
    moved: &mut [u8],
) -> Result<(), Refusal> {
    let Larsson(n, q, m, b) = f.numbers;
    Refusal::of(raw::move_to_a((n, q, m, b), table.as_bytes(), strip, moved))
}

/// Moves it the other way, to an older tray's strip. The figures must fit the Larsson code too.
pub fn move_to_larsson(
    f: &Figures,
    table: &Table,
    strip: &[u8],
    moved: &mut [u8],
) -> Result<(), Refusal> {
    Refusal::of(raw::move_to_larsson(
        f.numbers,
        table.as_bytes(),
        strip,
        moved,
    ))
}
