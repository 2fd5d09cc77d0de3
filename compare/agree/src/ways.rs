//! The two directions of a move between the Larsson code and Construction A.

use std::cmp::Ordering;

use burgzemi::Ranked;
use second::job::payload_len;
use second::Figures;

use crate::judge::Op;
use crate::sides::{Move, Side};

/// Where a job is moved to, from the other code.
#[derive(Clone, Copy, PartialEq, Eq, Debug)]
pub enum Way {
    ToA,
    ToLarsson,
}

pub const WAYS: [Way; 2] = [Way::ToA, Way::ToLarsson];

impl Way {
    pub fn op(self) -> Op {
        match self {
            Way::ToA => Op::MoveToA,
            Way::ToLarsson => Op::MoveToLarsson,
        }
    }

    pub fn call(self, side: &Side) -> Move {
        match self {
            Way::ToA => side.move_to_a,
            Way::ToLarsson => side.move_to_larsson,
        }
    }

    pub fn name(self) -> &'static str {
        match self {
            Way::ToA => "to A",
            Way::ToLarsson => "to Larsson",
        }
    }

    pub fn back(self) -> Way {
        match self {
            Way::ToA => Way::ToLarsson,
            Way::ToLarsson => Way::ToA,
        }
    }

    /// The figures moved from and to, where both codes take them.
    pub fn figures(self, (n, q, m, b): Ranked) -> Option<(Figures, Figures)> {
        let larsson = Figures::larsson(n, q, m, b).ok()?;
        let construction_a = Figures::new(n, q, m, b).ok()?;
        Some(match self {
            Way::ToA => (larsson, construction_a),
            Way::ToLarsson => (construction_a, larsson),
        })
    }

    /// Which payload is the longer, of figures that both codes take.
    pub fn lengths(self, f: Ranked) -> Option<Lengths> {
        let (from, to) = self.figures(f)?;
        Some(match payload_len(&to).cmp(&payload_len(&from)) {
            Ordering::Less => Lengths::Shorter,
            Ordering::Equal => Lengths::AsLong,
            Ordering::Greater => Lengths::Longer,
        })
    }
}

/// What a payload is moved to.
#[derive(Clone, Copy, PartialEq, Eq, Debug)]
pub enum Lengths {
    Shorter,
    AsLong,
    Longer,
}
