//! What a picture of a strip shows. The placement is the library's answer; where the cells of a placement are is worked out here.

mod constructions;
pub mod geometry;
mod larsson;
pub mod rates;
pub mod text;
pub mod vector;
mod wrap;

use burgzemi::Refusal;

use crate::figures::{CodeName, Figures};
use crate::place::listed;
use crate::refusals;
use constructions::Cutting;
use geometry::Cells;
use larsson::SubBlocks;

/// What stands at a position.
#[derive(Clone, Copy, PartialEq, Eq, Debug)]
pub enum Cell {
    Message,
    Burst,
    Digit,
    Fixed,
    /// Of a refused word.
    Unknown,
}

#[derive(Clone, Copy, PartialEq, Eq, Debug)]
pub enum Kind {
    Burst,
    Index,
    Fixed,
    /// A sub-block that bears the rank, any other sub-block, and what is between two of them.
    Bearer,
    Other,
    Gap,
    /// Of a refused word: by its first symbol.
    LooksFixed,
    Open,
}

#[derive(Clone, PartialEq, Eq, Debug)]
pub struct Block {
    pub cells: Cells,
    pub kind: Kind,
}

impl Block {
    fn all(cells: &[Cells], kinds: Vec<Kind>) -> Vec<Block> {
        let pairs = cells.iter().cloned().zip(kinds);
        pairs.map(|(cells, kind)| Block { cells, kind }).collect()
    }
}

/// Stretches of one sort, numbered from 0.
pub struct Row {
    pub label: &'static str,
    pub stretches: Vec<Cells>,
}

impl Row {
    fn new(label: &'static str, stretches: Vec<Cells>) -> Row {
        Row { label, stretches }
    }
}

pub struct Picture {
    pub title: String,
    /// The placement, or the refusal.
    pub note: String,
    pub refusal: Option<Refusal>,
    pub q: usize,
    pub word: Vec<u8>,
    pub rows: Vec<Row>,
    pub blocks: Vec<Block>,
    pub cells: Vec<Cell>,
    pub bursts: Vec<Cells>,
}

enum Shape {
    Construction(Cutting),
    Larsson(SubBlocks),
}

impl Shape {
    fn of(figures: &Figures) -> Shape {
        match figures.code() {
            CodeName::A => Shape::Construction(Cutting::of_a(figures.numbers)),
            CodeName::B => Shape::Construction(Cutting::of_b(figures.numbers)),
            CodeName::Larsson => Shape::Larsson(SubBlocks::of(figures.numbers)),
        }
    }

    fn rows(&self) -> Vec<Row> {
        match self {
            Shape::Construction(cutting) => cutting.rows(),
            Shape::Larsson(subs) => subs.rows(),
        }
    }

    fn placed(&self, starts: &[u16], b: usize) -> (Vec<Block>, Vec<Cell>) {
        match self {
            Shape::Construction(cutting) => cutting.placed(starts, b),
            Shape::Larsson(subs) => subs.placed(starts, b),
        }
    }

    fn unplaced(&self, word: &[u8]) -> (Vec<Block>, Vec<Cell>) {
        match self {
            Shape::Construction(cutting) => cutting.unplaced(word),
            Shape::Larsson(subs) => subs.unplaced(),
        }
    }
}

impl Picture {
    /// A word that is refused is drawn as far as it can be known; one of another length isn't drawn.
    pub fn of(figures: &Figures, word: &[u8]) -> Result<Picture, Refusal> {
        let (shape, b) = (Shape::of(figures), figures.numbers.b);
        let (starts, refusal) = match figures.decode(word) {
            Ok(reading) => (reading.starts, None),
            Err(Refusal::LENGTH) => return Err(Refusal::LENGTH),
            Err(refusal) => (Vec::new(), Some(refusal)),
        };
        let (blocks, cells) = match refusal {
            None => shape.placed(&starts, b),
            Some(_) => shape.unplaced(word),
        };
        let note = match refusal.map(Refusal::number) {
            None => placement_note(figures, &starts),
            Some(number) => format!("refused {number}: {}", refusals::said(number).0),
        };
        Ok(Picture {
            title: figures.to_string(),
            note,
            refusal,
            q: figures.numbers.q,
            word: word.to_vec(),
            rows: shape.rows(),
            blocks,
            cells,
            bursts: geometry::bursts(&starts, b).collect(),
        })
    }

    pub fn is_silent(&self, at: usize) -> bool {
        usize::from(self.word[at]) == self.q
    }

    /// How many characters a value takes.
    pub fn value_len(&self) -> usize {
        if self.q <= 16 {
            1
        } else {
            2
        }
    }

    /// What is found in a cell: its value in hex, or a mark for a silent cell and for a value that no symbol has.
    pub fn value(&self, at: usize) -> String {
        let len = self.value_len();
        match usize::from(self.word[at]) {
            value if value == self.q => "?".repeat(len),
            value if value > self.q => "!".repeat(len),
            value => format!("{value:0len$X}"),
        }
    }
}

/// Starts, and what the digits spell for them.
fn placement_note(figures: &Figures, starts: &[u16]) -> String {
    let listed = listed(starts);
    if figures.code() != CodeName::B {
        return format!(
            "starts{listed}, rank {}",
            geometry::rank(starts, figures.numbers.b)
        );
    }
    let parts = geometry::cut(0..figures.numbers.n, 3);
    let last = geometry::bursts(starts, figures.numbers.b)
        .next()
        .map_or(0, |burst| burst.end - 1);
    let part = parts
        .iter()
        .position(|part| part.contains(&last))
        .unwrap_or(0);
    format!(
        "starts{listed}, the burst ends {} into part {part}",
        last - parts[part].start
    )
}

impl Cell {
    pub fn letter(self) -> char {
        match self {
            Cell::Message => 'm',
            Cell::Burst => 'b',
            Cell::Digit => 'd',
            Cell::Fixed => 'f',
            Cell::Unknown => '.',
        }
    }

    pub fn name(self) -> &'static str {
        match self {
            Cell::Message => "message",
            Cell::Burst => "burst",
            Cell::Digit => "digit",
            Cell::Fixed => "fixed",
            Cell::Unknown => "not known",
        }
    }
}

impl Kind {
    pub fn letter(self) -> char {
        match self {
            Kind::Burst => 'B',
            Kind::Index => 'I',
            Kind::Fixed => 'F',
            Kind::Bearer => 'R',
            Kind::Other => '-',
            Kind::Gap => ' ',
            Kind::LooksFixed => 'f',
            Kind::Open => 'o',
        }
    }

    pub fn name(self) -> &'static str {
        match self {
            Kind::Burst => "burst block",
            Kind::Index => "index block",
            Kind::Fixed => "fixed block",
            Kind::Bearer => "bears the rank",
            Kind::Other => "doesn't",
            Kind::Gap => "gap",
            Kind::LooksFixed => "looks fixed",
            Kind::Open => "open",
        }
    }
}

/// Those of a list that occur, each once, in the order of their first occurrence.
pub fn occurring<T: Copy + PartialEq>(all: impl Iterator<Item = T>) -> Vec<T> {
    all.fold(Vec::new(), |mut seen, one| {
        if !seen.contains(&one) {
            seen.push(one);
        }
        seen
    })
}
