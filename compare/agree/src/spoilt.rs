//! Words spoilt outside their runs: other values where they tell of the placement, and cells changed at will.

use second::blocks::{burst_blocks, index_blocks, Layout};
use second::figures::Code;
use second::index;

use crate::larsson::voted;
use crate::make::{found, silent_value, spell, symbol, value};
use crate::rng::Rng;
use crate::uses::{cells, Use};
use crate::words::Strip;

/// The word with another value or any other word, now and then, and some cells changed that have one use.
pub fn spoilt(rng: &mut Rng, strip: &Strip) -> Vec<u8> {
    let f = &strip.f;
    let mut word = match rng.below(4) {
        0 => found(rng, f.q, f.n),
        1 => other_value(rng, strip),
        _ => strip.word.clone(),
    };
    let wanted = rng.pick(&[Use::Index, Use::Index, Use::Fixed, Use::Message]);
    let cells = cells(strip, wanted);
    for _ in 0..rng.below(4).min(cells.len() as u64) {
        word[rng.pick(&cells)] = match rng.below(8) {
            0 => rng.byte(),
            1 => silent_value(f.q).unwrap_or(0),
            2 | 3 => 0,
            _ => symbol(rng, f.q),
        };
    }
    word
}

/// The strip with another value, often too large, in the I-blocks, or one in most sub-blocks or not quite.
fn other_value(rng: &mut Rng, strip: &Strip) -> Vec<u8> {
    let f = &strip.f;
    if f.code == Code::Larsson {
        return voted(rng, f).word;
    }
    let layout = Layout::new(f);
    let index = index_blocks(f, burst_blocks(f, &layout, &strip.starts));
    let value = value(rng, f, index::values(f, &layout, index));
    let mut word = strip.word.clone();
    spell(f, &layout, index, value, &mut word);
    word
}
