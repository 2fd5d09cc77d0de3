//! The kinds of calls, and the answers that each can give.

use second::figures::Code;
use second::raw::DIFFERS;

use crate::causes::Cause;
use crate::sides::Numbers;

#[derive(Clone, Copy, PartialEq, Eq, Debug)]
pub enum Op {
    Figures,
    Encode,
    Decode,
    Verify,
    Cover,
    Interleave,
    Deinterleave,
    Open,
    Cancel,
    Finish,
    Reinstate,
    Hold,
    Release,
    JobWrite,
    JobRead,
    Transpose,
    SphericalEquivalent,
    PrescriptionWrite,
    PrescriptionRead,
    MoveToA,
    MoveToLarsson,
}

impl Op {
    /// The call on a table that a letter asks for.
    pub fn of_letter(letter: u8) -> Op {
        match letter {
            b'O' => Op::Open,
            b'C' => Op::Cancel,
            b'F' => Op::Finish,
            b'I' => Op::Reinstate,
            b'H' => Op::Hold,
            b'U' => Op::Release,
            _ => panic!("no call has the letter {letter}"),
        }
    }

    /// This call under these figures.
    pub fn under(self, f: Numbers) -> Kind {
        let code = f.code();
        Kind { op: self, code }
    }

    pub fn name(self) -> &'static str {
        OPS[self as usize].1
    }
}

/// Every code.
pub const CODES: [Code; 3] = [Code::ConstructionA, Code::ConstructionB, Code::Larsson];
/// A call without figures, or with those of a move, counts as one of Construction A's.
const ONCE: [Code; 1] = [Code::ConstructionA];

/// Each call, its name, the codes that it is counted by, and the answers that it can give under a construction's figures.
const OPS: [(Op, &str, &[Code], &[u8]); 21] = [
    (Op::Figures, "figures", &CODES, &[0, 1, 2, 3]),
    (Op::Encode, "word write", &CODES, &[0, 1, 2, 3, 4, 5]),
    (
        Op::Decode,
        "word read",
        &CODES,
        &[0, 1, 2, 3, 4, 7, 8, 9, 19],
    ),
    (Op::Verify, "verify", &CODES, &[0, 1, 2, 3, 4, 5, DIFFERS]),
    (Op::Cover, "covering", &CODES, &[0, 1, 2, 3, 4, 6]),
    (Op::Interleave, "interleave", &CODES, &[0, 1, 2, 3, 4, 18]),
    (
        Op::Deinterleave,
        "deinterleave",
        &CODES,
        &[0, 1, 2, 3, 4, 18],
    ),
    (Op::Open, "open", &ONCE, &[0, 1, 3, 12, 13, 15, 17]),
    (Op::Cancel, "cancel", &ONCE, &[0, 1, 3, 12, 15, 17]),
    (Op::Finish, "finish", &ONCE, &[0, 1, 3, 12, 14, 23]),
    (Op::Reinstate, "reinstate", &ONCE, &[0, 1, 3, 20]),
    (Op::Hold, "hold", &ONCE, &[0, 1, 3, 12, 14, 23]),
    (Op::Release, "release", &ONCE, &[0, 1, 3, 12, 24]),
    (
        Op::JobWrite,
        "job write",
        &CODES,
        &[0, 1, 2, 3, 5, 10, 12, 14, 17, 23],
    ),
    (
        Op::JobRead,
        "job read",
        &CODES,
        &[0, 1, 2, 3, 4, 7, 8, 9, 10, 12, 14, 19, 23],
    ),
    (Op::Transpose, "transposing", &ONCE, &[0, 3, 16]),
    (Op::SphericalEquivalent, "equivalent", &ONCE, &[0, 3, 16]),
    (
        Op::PrescriptionWrite,
        "prescription write",
        &CODES,
        &[0, 1, 2, 3, 5, 10, 12, 14, 16, 17, 23],
    ),
    (
        Op::PrescriptionRead,
        "prescription read",
        &CODES,
        &[0, 1, 2, 3, 4, 7, 8, 9, 10, 12, 14, 16, 19, 23],
    ),
    (
        Op::MoveToA,
        "move to A",
        &ONCE,
        &[0, 1, 2, 3, 4, 8, 9, 10, 12, 14, 17, 19, 21, 22, 23],
    ),
    (
        Op::MoveToLarsson,
        "move to Larsson",
        &ONCE,
        &[0, 1, 2, 3, 4, 7, 8, 9, 10, 12, 14, 17, 19, 22, 23],
    ),
];

/// How many places kinds have.
pub const KINDS: usize = OPS.len() * CODES.len();

/// A kind of call, and the code that it is counted by.
#[derive(Clone, Copy)]
pub struct Kind {
    pub op: Op,
    pub code: Code,
}

impl From<Op> for Kind {
    fn from(op: Op) -> Kind {
        let [code] = ONCE;
        Kind { op, code }
    }
}

impl Kind {
    /// Every kind, one code after another.
    pub fn all() -> impl Iterator<Item = Kind> {
        let each = |code| OPS.iter().map(move |&(op, ..)| Kind { op, code });
        let counted = |kind: &Kind| OPS[kind.op as usize].2.contains(&kind.code);
        CODES.into_iter().flat_map(each).filter(counted)
    }

    /// Its place, below `KINDS`.
    pub fn index(self) -> usize {
        self.code as usize * OPS.len() + self.op as usize
    }

    pub fn name(self) -> String {
        let code = match self.code {
            Code::ConstructionA => "",
            Code::ConstructionB => "long ",
            Code::Larsson => "larsson ",
        };
        format!("{code}{}", self.op.name())
    }

    /// The answers that it can give, each of which a gate run must see. Where no placement can be told, a construction has 7 and the Larsson code 21.
    pub fn possible(self) -> impl Iterator<Item = u8> {
        let (.., answers) = OPS[self.op as usize];
        answers.iter().map(move |&number| match number {
            7 if self.code == Code::Larsson => 21,
            _ => number,
        })
    }

    pub fn can_answer(self, number: u8) -> bool {
        self.possible().any(|possible| possible == number)
    }

    /// Whether it can be refused for this: job calls have 10, readings 19, and those by a construction 7.
    pub fn has(self, cause: Cause) -> bool {
        let numbers: &[u8] = match cause {
            Cause::Figure | Cause::State | Cause::Twice | Cause::NoRoom => &[10],
            Cause::NoPayload => &[10, 19],
            Cause::SilentIndex => &[7, 19],
            Cause::SilentMessage => &[19],
        };
        numbers.iter().all(|&number| self.can_answer(number))
    }
}
