//! The judge: makes each call on both sides, compares answers and every byte of the buffers, and counts.

use crate::kinds::Kind;
use crate::lent::{Item, Lent};
use crate::sides::{Numbers, Side, PROVED, SECOND};
use crate::tally::Tally;

pub use crate::kinds::Op;

mod moving;
mod prescription;

/// How many differences are printed in full.
const PRINTED: u64 = 10;

/// A call of one side on its own two buffers.
type Call<'a, T> = dyn Fn(&Side, &mut [u8], &mut [T]) -> u8 + 'a;

/// What both sides answered: the number, and the written buffers (as they were where it is a refusal).
pub struct Answer<T = u8> {
    pub number: u8,
    pub out: Vec<u8>,
    pub also: Vec<T>,
}

#[derive(Default)]
pub struct Judge {
    pub tally: Tally,
    pub differences: u64,
}

impl Judge {
    /// Makes one call on both sides with copies of the same two buffers, the second often empty.
    fn both<T: Item>(
        &mut self,
        kind: Kind,
        out: Lent,
        also: Lent<T>,
        inputs: &dyn Fn() -> String,
        call: &Call<T>,
    ) -> Answer<T> {
        let run = |side: &Side| {
            let (mut a, mut b) = (out.clone(), also.clone());
            let number = call(side, a.items(), b.items());
            (number, a, b)
        };
        let (ours, theirs) = (run(&PROVED), run(&SECOND));
        for (side, (number, a, b)) in [(&PROVED, &ours), (&SECOND, &theirs)] {
            let kept = a.guarded(&out) && b.guarded(&also);
            if !kept || (*number != 0 && (*a != out || *b != also)) {
                let what = format!("{} touched bytes, answer {number}", side.name);
                self.report(kind.op, inputs, &what);
            }
        }
        if ours != theirs {
            let (outs, others) = ([&ours.1, &theirs.1], [&ours.2, &theirs.2]);
            let outs = [outs.map(Lent::shown), others.map(Lent::shown)].concat();
            let outs = outs.join("\n          ");
            let what = format!("answers {} and {}\n  buffers {outs}", ours.0, theirs.0);
            self.report(kind.op, inputs, &what);
        }
        self.count(kind, theirs.0, inputs);
        Answer {
            number: theirs.0,
            out: theirs.1.into_items(),
            also: theirs.2.into_items(),
        }
    }

    fn count(&mut self, kind: Kind, number: u8, inputs: &dyn Fn() -> String) {
        self.tally.count(kind, number);
        if !kind.can_answer(number) {
            self.report(
                kind.op,
                inputs,
                &format!("answer {number}, which this call can't give"),
            );
        }
    }

    /// Notes a difference, and prints the first ones with their inputs.
    pub fn report(&mut self, op: Op, inputs: &dyn Fn() -> String, what: &str) {
        self.differences += 1;
        if self.differences <= PRINTED {
            println!("difference: {}: {what}\n  {}", op.name(), inputs());
        }
    }

    /// Says that something known to hold doesn't.
    pub fn expect(&mut self, op: Op, holds: bool, inputs: &dyn Fn() -> String, what: &str) {
        if !holds {
            self.report(op, inputs, what);
        }
    }

    /// T, r, k and K come as `also`.
    pub fn figures(&mut self, f: Numbers, room: usize) -> Answer<u64> {
        let inputs = || format!("figures {f:?} room {room}");
        self.both(
            Op::Figures.under(f),
            Lent::new(0),
            Lent::new(room),
            &inputs,
            &|side, _, figures| (side.figures)(f, figures),
        )
    }

    pub fn encode(&mut self, f: Numbers, starts: &[u8], message: &[u8], word: usize) -> Answer {
        let inputs = || {
            format!(
                "{f:?} starts {} message {} word {word}",
                hex(starts),
                hex(message)
            )
        };
        self.both(
            Op::Encode.under(f),
            Lent::new(word),
            Lent::new(0),
            &inputs,
            &|side, out, _| (side.encode)(f, starts, message, out),
        )
    }

    /// The message comes as `out`, the starts as `also`.
    pub fn decode(&mut self, f: Numbers, word: &[u8], message: usize, starts: usize) -> Answer {
        let inputs = || format!("{f:?} word {} message {message} starts {starts}", hex(word));
        let lent = (Lent::new(message), Lent::new(starts));
        let answer = self.both(
            Op::Decode.under(f),
            lent.0,
            lent.1,
            &inputs,
            &|side, out, also| (side.decode)(f, word, out, also),
        );
        if answer.number == 0 {
            self.tally.count_accepted(f, word);
        }
        answer
    }

    /// The word and the message are lent as written buffers are, and must be left as they were.
    pub fn verify(&mut self, f: Numbers, starts: &[u8], message: &[u8], word: &[u8]) -> u8 {
        let bytes = [starts, message, word];
        let inputs = || format!("{f:?} starts, message, word {}", all(&bytes));
        let lent = (Lent::holding(word), Lent::holding(message));
        let answer = self.both(
            Op::Verify.under(f),
            lent.0,
            lent.1,
            &inputs,
            &|side, out, also| (side.verify)(f, starts, also, out),
        );
        let kept = answer.out == word && answer.also == message;
        self.expect(Op::Verify, kept, &inputs, "a list or a word was touched");
        answer.number
    }

    pub fn cover(&mut self, f: Numbers, map: &[u8], starts: usize) -> Answer {
        let inputs = || format!("{f:?} map {} starts {starts}", hex(map));
        self.both(
            Op::Cover.under(f),
            Lent::new(starts),
            Lent::new(0),
            &inputs,
            &|side, out, _| (side.cover)(f, map, out),
        )
    }

    pub fn interleave(&mut self, f: Numbers, depth: u32, words: &[u8], strip: usize) -> Answer {
        let inputs = || format!("{f:?} depth {depth} words {} strip {strip}", hex(words));
        self.both(
            Op::Interleave.under(f),
            Lent::new(strip),
            Lent::new(0),
            &inputs,
            &|side, out, _| (side.interleave)(f, depth, words, out),
        )
    }

    pub fn deinterleave(&mut self, f: Numbers, depth: u32, strip: &[u8], words: usize) -> Answer {
        let inputs = || format!("{f:?} depth {depth} strip {} words {words}", hex(strip));
        self.both(
            Op::Deinterleave.under(f),
            Lent::new(words),
            Lent::new(0),
            &inputs,
            &|side, out, _| (side.deinterleave)(f, depth, strip, out),
        )
    }

    /// The table afterwards comes as `out`.
    pub fn call(&mut self, table: &[u8], letter: u8, number: u32) -> Answer {
        let inputs = || format!("table {} letter {letter} number {number}", hex(table));
        self.both(
            Op::of_letter(letter).into(),
            Lent::holding(table),
            Lent::new(0),
            &inputs,
            &|side, out, _| side.call(letter)(out, number),
        )
    }

    pub fn job_write(
        &mut self,
        f: Numbers,
        table: &[u8],
        starts: &[u8],
        payload: &[u8],
        word: usize,
    ) -> Answer {
        let bytes = [table, starts, payload];
        let inputs = || format!("{f:?} table, starts, payload {} word {word}", all(&bytes));
        let kind = Op::JobWrite.under(f);
        let answer = self.both(
            kind,
            Lent::new(word),
            Lent::new(0),
            &inputs,
            &|side, out, _| (side.job_write)(f, table, starts, payload, out),
        );
        self.tally.count_job(kind, f, table, answer.number);
        answer
    }

    pub fn job_read(&mut self, f: Numbers, table: &[u8], word: &[u8], payload: usize) -> Answer {
        let bytes = [table, word];
        let inputs = || format!("{f:?} table, word {} payload {payload}", all(&bytes));
        let kind = Op::JobRead.under(f);
        let answer = self.both(
            kind,
            Lent::new(payload),
            Lent::new(0),
            &inputs,
            &|side, out, _| (side.job_read)(f, table, word, out),
        );
        self.tally.count_job(kind, f, table, answer.number);
        answer
    }
}

/// Several lists of bytes, as printed in a difference.
pub fn all(lists: &[&[u8]]) -> String {
    let lists: Vec<String> = lists.iter().map(|bytes| hex(bytes)).collect();
    lists.join("  ")
}

/// Bytes as printed in a difference.
pub fn hex(bytes: &[u8]) -> String {
    let digits: String = bytes.iter().map(|byte| format!("{byte:02X}")).collect();
    format!("[{}] {digits}", bytes.len())
}
