//! Why a call was refused.

use std::fmt;

/// The number of a refusal: 1 to 24.
#[derive(Clone, Copy, PartialEq, Eq, Hash, Debug)]
pub struct Refusal(u8);

const TEXTS: [(u8, &str); 24] = [
    (
        1,
        "a figure is out of range, or a job table has an unknown state or one number twice",
    ),
    (2, "the figures don't fit"),
    (
        3,
        "a list or a buffer has another length than the figures give",
    ),
    (
        4,
        "a symbol of q or more, a found value above q, or a map byte above 1",
    ),
    (5, "starts too close, descending, or past the end"),
    (6, "no placement covers the map"),
    (7, "the blocks' first symbols are in no listed pattern"),
    (
        8,
        "the value at the heads of the index blocks, or in most sub-blocks, is too large",
    ),
    (
        9,
        "the placement disagrees with the index or fixed blocks or with the sub-blocks, or begins before the word",
    ),
    (10, "no room for a job, or the message spells no payload"),
    (11, "a record is unreadable, or one too many"),
    (12, "the job number is cancelled"),
    (13, "the job number is already open"),
    (14, "the job number is not open"),
    (15, "64 job numbers are held and a new one is needed"),
    (
        16,
        "no prescription by the rules: sphere and sphere plus cylinder are whole eighths of a dioptre from -30 to 30, a power that stands alone and a \
         cylinder are not 0, none is minus zero, an axis is 1 to 180, the pupil distance is whole half millimetres from 40 to 80, and the payload has \
         17 bytes or more; a plain job call carries any other text",
    ),
    (17, "job number 0 is no job"),
    (18, "the depth is none of 1 to 16"),
    (
        19,
        "a cell without a reading in an index block's head or in the message",
    ),
    (20, "the job number is not cancelled"),
    (21, "no value is in most of the sub-blocks"),
    (
        22,
        "bytes of the payload that have no room on the other strip are not all 0",
    ),
    (23, "the job number is on hold"),
    (24, "the job number is not on hold"),
];

impl Refusal {
    pub const INVALID: Refusal = Refusal(1);
    pub const UNFIT: Refusal = Refusal(2);
    pub const LENGTH: Refusal = Refusal(3);
    pub const SYMBOL: Refusal = Refusal(4);
    pub const STARTS: Refusal = Refusal(5);
    pub const UNCOVERED: Refusal = Refusal(6);
    pub const PATTERN: Refusal = Refusal(7);
    pub const VALUE: Refusal = Refusal(8);
    pub const DISAGREES: Refusal = Refusal(9);
    pub const PAYLOAD: Refusal = Refusal(10);
    pub const RECORD: Refusal = Refusal(11);
    pub const CANCELLED: Refusal = Refusal(12);
    pub const ALREADY_OPEN: Refusal = Refusal(13);
    pub const NOT_OPEN: Refusal = Refusal(14);
    pub const FULL: Refusal = Refusal(15);
    pub const PRESCRIPTION: Refusal = Refusal(16);
    pub const NUMBER_ZERO: Refusal = Refusal(17);
    pub const DEPTH: Refusal = Refusal(18);
    pub const SILENT: Refusal = Refusal(19);
    pub const NOT_CANCELLED: Refusal = Refusal(20);
    pub const MAJORITY: Refusal = Refusal(21);
    pub const SURPLUS: Refusal = Refusal(22);
    pub const ON_HOLD: Refusal = Refusal(23);
    pub const NOT_ON_HOLD: Refusal = Refusal(24);

    /// The outcome that a C call's answer stands for.
    pub(crate) fn of(answer: u8) -> Result<(), Refusal> {
        if answer == 0 {
            Ok(())
        } else {
            Err(Refusal(answer))
        }
    }

    pub fn number(self) -> u8 {
        self.0
    }

    /// What was wrong.
    pub fn text(self) -> &'static str {
        let known = TEXTS.iter().find(|(number, _)| *number == self.0);
        known.map_or("an unknown refusal", |(_, text)| text)
    }
}

impl fmt::Display for Refusal {
    fn fmt(&self, f: &mut fmt::Formatter<'_>) -> fmt::Result {
        write!(f, "refused with {}: {}", self.0, self.text())
    }
}

impl std::error::Error for Refusal {}
