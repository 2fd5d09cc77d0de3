//! What of a word holds no message.

use crate::figures::{Figures, MAX_BLOCKS, MAX_RUNS};

/// Stretches of the word that hold no message, ascending and apart: the runs, and what tells where they are.
#[derive(Debug)]
pub struct Reserved {
    stretches: [(u16, u16); MAX_BLOCKS + MAX_RUNS],
    count: usize,
}

impl Reserved {
    /// The runs, and other stretches by where they begin and how long they are, ascending and apart from the runs.
    pub fn new(
        f: &Figures,
        starts: &[u16],
        others: impl Iterator<Item = (usize, usize)>,
    ) -> Reserved {
        let mut reserved = Reserved {
            stretches: [(0, 0); MAX_BLOCKS + MAX_RUNS],
            count: 0,
        };
        let mut runs = starts.iter().map(|&start| start as usize).peekable();
        for (begin, len) in others.filter(|other| other.1 > 0) {
            while let Some(start) = runs.next_if(|&start| start < begin) {
                reserved.push(start, f.b);
            }
            reserved.push(begin, len);
        }
        runs.for_each(|start| reserved.push(start, f.b));
        reserved
    }

    fn push(&mut self, begin: usize, len: usize) {
        self.stretches[self.count] = (begin as u16, (begin + len) as u16);
        self.count += 1;
    }

    /// Calls `piece` with each stretch of the word between these, as its start in the message, in the word, and its end there.
    pub fn between(&self, n: usize, mut piece: impl FnMut(usize, usize, usize)) {
        let (mut at, mut done) = (0, 0);
        for &(start, end) in &self.stretches[..self.count] {
            let (start, end) = (start as usize, end as usize);
            if start > at {
                piece(done, at, start);
                done += start - at;
            }
            at = end;
        }
        if n > at {
            piece(done, at, n);
        }
    }
}
