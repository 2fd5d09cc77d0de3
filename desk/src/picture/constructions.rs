//! Constructions A and B: parts, blocks and their kinds.

use super::geometry::{bursts, cut, least_tail, placement_count, Cells};
use super::{Block, Cell, Kind, Row};
use crate::figures::Numbers;

/// A word cut into parts and blocks; `head` is how many symbols an index block's head has.
pub struct Cutting {
    pub parts: Vec<Cells>,
    pub blocks: Vec<Cells>,
    pub head: usize,
}

impl Cutting {
    pub fn of_a(numbers: Numbers) -> Cutting {
        let Numbers { n, q, m, .. } = numbers;
        let parts = cut(0..n, if m <= 2 { 3 } else { m });
        Cutting {
            blocks: parts.iter().flat_map(|part| cut(part.clone(), m)).collect(),
            parts,
            head: 1 + least_tail(q - 1, q, m, placement_count(numbers)),
        }
    }

    /// The parts of Construction B are its blocks.
    pub fn of_b(numbers: Numbers) -> Cutting {
        let Numbers { n, q, .. } = numbers;
        let parts = cut(0..n, 3);
        Cutting {
            blocks: parts.clone(),
            parts,
            head: 1 + least_tail(q - 1, q, 1, n.div_ceil(3) as u128),
        }
    }

    /// The rows that name parts and blocks; blocks that are parts need no row of their own.
    pub fn rows(&self) -> Vec<Row> {
        let mut rows = vec![Row::new("part", self.parts.clone())];
        if self.blocks.len() > self.parts.len() {
            rows.push(Row::new("block", self.blocks.clone()));
        }
        rows
    }

    /// Which blocks are burst, index and fixed blocks where the bursts have these starts.
    fn kinds(&self, starts: &[u16], b: usize) -> Vec<Kind> {
        let mut kinds = vec![Kind::Fixed; self.blocks.len()];
        for burst in bursts(starts, b) {
            let ends_in = self
                .blocks
                .iter()
                .position(|block| block.contains(&(burst.end - 1)));
            let spare = kinds.iter().position(|kind| *kind != Kind::Burst);
            match ends_in {
                Some(block) if kinds[block] != Kind::Burst => kinds[block] = Kind::Burst,
                _ => kinds[spare.expect("more blocks than bursts")] = Kind::Burst,
            }
        }
        for block in self.index_blocks(&kinds) {
            kinds[block] = Kind::Index;
        }
        kinds
    }

    /// The index blocks that the burst blocks leave.
    fn index_blocks(&self, kinds: &[Kind]) -> Vec<usize> {
        let (p, m) = (self.parts.len(), self.blocks.len() / self.parts.len());
        let is_burst = |part: usize, block: usize| kinds[part * m + block] == Kind::Burst;
        let counts: Vec<usize> = (0..p)
            .map(|part| (0..m).filter(|block| is_burst(part, *block)).count())
            .collect();
        let total: usize = counts.iter().sum();
        let whole_part = match counts.iter().position(|count| *count == total) {
            Some(all) => Some((all + 1) % p),
            None => counts.iter().position(|count| *count == 0),
        };
        match whole_part {
            Some(part) => (part * m..(part + 1) * m).collect(),
            None => (0..p)
                .map(|part| {
                    let burst = (0..m).find(|block| is_burst(part, *block));
                    part * m + (burst.expect("one in each part") + 1) % m
                })
                .collect(),
        }
    }

    /// The blocks and the cells of a word whose bursts have these starts.
    pub fn placed(&self, starts: &[u16], b: usize) -> (Vec<Block>, Vec<Cell>) {
        let mut cells = vec![Cell::Message; self.parts.last().map_or(0, |part| part.end)];
        let kinds = self.kinds(starts, b);
        for (block, kind) in self.blocks.iter().zip(&kinds) {
            match kind {
                Kind::Index => cells[block.start..block.start + self.head].fill(Cell::Digit),
                Kind::Fixed => cells[block.start] = Cell::Fixed,
                _ => {}
            }
        }
        bursts(starts, b).for_each(|burst| cells[burst].fill(Cell::Burst));
        (Block::all(&self.blocks, kinds), cells)
    }

    /// What shows without a placement: a block that begins with 0 looks fixed, any other is open.
    pub fn unplaced(&self, word: &[u8]) -> (Vec<Block>, Vec<Cell>) {
        let mut cells = vec![Cell::Unknown; word.len()];
        let kinds = self.blocks.iter().map(|block| match word[block.start] {
            0 => {
                cells[block.start] = Cell::Fixed;
                Kind::LooksFixed
            }
            _ => Kind::Open,
        });
        let kinds = kinds.collect();
        (Block::all(&self.blocks, kinds), cells)
    }
}
