//! The Larsson code: sub-blocks, the gaps between them, and which sub-blocks bear the rank.

use super::geometry::{bursts, cut, least_tail, placement_count, Cells};
use super::{Block, Cell, Kind, Row};
use crate::figures::Numbers;

pub struct SubBlocks {
    subs: Vec<Cells>,
    n: usize,
    m: usize,
}

impl SubBlocks {
    pub fn of(numbers: Numbers) -> SubBlocks {
        let Numbers { n, q, m, .. } = numbers;
        let len = least_tail(1, q, 1, placement_count(numbers));
        let count = 2 * m + 1;
        let gaps = cut(0..n - count * len, count - 1);
        let starts = std::iter::once(0).chain(gaps.iter().map(|gap| gap.end));
        let subs = starts
            .enumerate()
            .map(|(i, start)| start + i * len..start + (i + 1) * len);
        SubBlocks {
            subs: subs.collect(),
            n,
            m,
        }
    }

    pub fn rows(&self) -> Vec<Row> {
        vec![Row::new("sub-block", self.subs.clone())]
    }

    /// The first m + 1 sub-blocks that no burst touches bear the rank.
    pub fn placed(&self, starts: &[u16], b: usize) -> (Vec<Block>, Vec<Cell>) {
        let mut cells = vec![Cell::Message; self.n];
        bursts(starts, b).for_each(|burst| cells[burst].fill(Cell::Burst));
        let mut bearers = 0;
        let mut kinds = vec![Kind::Other; self.subs.len()];
        for (kind, sub) in kinds.iter_mut().zip(&self.subs) {
            let touched = cells[sub.clone()].contains(&Cell::Burst);
            if !touched && bearers <= self.m {
                *kind = Kind::Bearer;
                cells[sub.clone()].fill(Cell::Digit);
                bearers += 1;
            }
        }
        (self.blocks(kinds), cells)
    }

    pub fn unplaced(&self) -> (Vec<Block>, Vec<Cell>) {
        let kinds = vec![Kind::Open; self.subs.len()];
        (self.blocks(kinds), vec![Cell::Unknown; self.n])
    }

    /// Sub-blocks and the gaps between them, from left to right. Where there is one placement alone, sub-blocks have no cells and are left out.
    fn blocks(&self, kinds: Vec<Kind>) -> Vec<Block> {
        let mut blocks = Vec::new();
        let mut end = 0;
        for (sub, kind) in self.subs.iter().zip(kinds) {
            let gap = end..sub.start;
            end = sub.end;
            blocks.push(Block {
                cells: gap,
                kind: Kind::Gap,
            });
            blocks.push(Block {
                cells: sub.clone(),
                kind,
            });
        }
        blocks.retain(|block| !block.cells.is_empty());
        blocks
    }
}
