//! Cells on lines of a limited length.

use super::Block;

/// Where a cell stands: its line, and how far from that line's left edge.
#[derive(Clone, Copy, PartialEq, Eq, Debug)]
pub struct Spot {
    pub line: usize,
    pub x: usize,
}

/// What a line has room for, what a cell takes, how far on the next cell stands, and what parts two blocks.
pub struct Measure {
    pub room: usize,
    pub cell: usize,
    pub pitch: usize,
    pub gap: usize,
}

impl Measure {
    /// The spot of each cell. A block that has room on one line stands on one.
    pub fn spots(&self, blocks: &[Block]) -> Vec<Spot> {
        let mut spots = Vec::new();
        let mut next = Spot { line: 0, x: 0 };
        for block in blocks {
            let len = (block.cells.len() - 1) * self.pitch + self.cell;
            let moved = len <= self.room && next.x + len > self.room;
            for cell in 0..block.cells.len() {
                if next.x + self.cell > self.room || moved && cell == 0 {
                    next = Spot {
                        line: next.line + 1,
                        x: 0,
                    };
                }
                spots.push(next);
                next.x += self.pitch;
            }
            next.x += self.gap;
        }
        spots
    }
}
