//! Written words with silent cells outside their runs, of which each place has its refusal.

use second::figures::Code;

use crate::causes::Cause;
use crate::judge::{hex, Judge, Op};
use crate::kinds::Kind;
use crate::make::{damage, numbers, silent_value};
use crate::rng::Rng;
use crate::uses::{cells, Use};
use crate::words::Strip;

/// The word of a strip with a silent cell or more outside its runs.
pub struct Silent<'a> {
    strip: &'a Strip,
    wanted: Use,
    pub word: Vec<u8>,
}

impl Silent<'_> {
    /// Damage inside the runs, and silent cells that have one use; none where no value is left for them, or no such cell.
    pub fn new<'a>(rng: &mut Rng, strip: &'a Strip) -> Option<Silent<'a>> {
        let f = &strip.f;
        let silent = silent_value(f.q)?;
        let wanted = rng.pick(&[Use::Index, Use::Fixed, Use::Message]);
        let cells = cells(strip, wanted);
        if cells.is_empty() {
            return None;
        }
        let mut word = strip.word.clone();
        damage(rng, f, &strip.starts, &mut word);
        for _ in 0..rng.pick(&[1, 1, 1, 2, 5]) {
            word[rng.pick(&cells)] = silent;
        }
        Some(Silent {
            strip,
            wanted,
            word,
        })
    }

    /// Sees that a reader refuses it: with 19 where all are in the message or in the I-blocks. In the Larsson code's bearers it is a vote less, 21, or one
    /// that the placement needs, 9.
    pub fn judge(&self, judge: &mut Judge, kind: Kind, number: u8) {
        let Strip { f, starts, .. } = self.strip;
        let (answers, cause): (&[u8], _) = match self.wanted {
            Use::Index if f.code == Code::Larsson => (&[9, 21], None),
            Use::Index => (&[19], Some(Cause::SilentIndex)),
            Use::Message => (&[19], Some(Cause::SilentMessage)),
            _ => (&[7, 8, 9, 19], None),
        };
        let right = answers.contains(&number);
        let inputs = || format!("{f:?} {starts:?} word {}", hex(&self.word));
        judge.expect(kind.op, right, &inputs, "a silent cell outside the runs");
        if let Some(cause) = cause {
            judge.tally.count_cause(kind, cause);
        }
    }
}

/// Reads such a word.
pub fn outside(judge: &mut Judge, rng: &mut Rng, strip: &Strip) {
    if let Some(silent) = Silent::new(rng, strip) {
        let f = &strip.f;
        let read = judge.decode(numbers(f), &silent.word, f.k, 2 * f.m);
        silent.judge(judge, Op::Decode.under(numbers(f)), read.number);
    }
}
