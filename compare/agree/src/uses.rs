//! What the cells of a written word are for.

use second::blocks::{burst_blocks, index_blocks, Layout};
use second::figures::Code;
use second::larsson::bearers;

use crate::words::Strip;

/// What a cell of a word is for.
#[derive(Clone, Copy, PartialEq, Eq)]
pub enum Use {
    Run,
    /// One of an I-block's first r + 1 symbols, or of a sub-block that bears the rank.
    Index,
    /// An F-block's first symbol.
    Fixed,
    Message,
}

fn uses(strip: &Strip) -> Vec<Use> {
    let f = &strip.f;
    let mut uses = vec![Use::Message; f.n];
    if f.code == Code::Larsson {
        bearers(f, &strip.starts).for_each(|at| uses[at..at + f.r].fill(Use::Index));
    } else {
        by_blocks(strip, &mut uses);
    }
    for &start in &strip.starts {
        uses[start as usize..start as usize + f.b].fill(Use::Run);
    }
    uses
}

fn by_blocks(strip: &Strip, uses: &mut [Use]) {
    let f = &strip.f;
    let layout = Layout::new(f);
    let bursts = burst_blocks(f, &layout, &strip.starts);
    let index = index_blocks(f, bursts);
    for block in 0..f.blocks() {
        let begin = layout.begin[block] as usize;
        if index >> block & 1 == 1 {
            uses[begin..=begin + f.r].fill(Use::Index);
        } else if bursts >> block & 1 == 0 {
            uses[begin] = Use::Fixed;
        }
    }
}

/// The cells with this use, ascending.
pub fn cells(strip: &Strip, wanted: Use) -> Vec<usize> {
    let uses = uses(strip);
    (0..strip.f.n)
        .filter(|&cell| uses[cell] == wanted)
        .collect()
}
