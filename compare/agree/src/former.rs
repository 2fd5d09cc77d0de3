//! Strips within the limits before change request 11, n to 1024 and m to 6: the lengths and the words that the library
//! gave them then, as one digest. It was taken from the library as it stood before that change.

use second::choose::unrank;
use second::Figures;

use crate::judge::{Judge, Op};
use crate::make::{numbers, start_bytes};
use crate::rng::Rng;
use crate::sides::PROVED;

const DIGEST: u64 = 0x0293_55E2_FE3E_DFCD;

/// The digest FNV-1a of 64 bits.
struct Digest(u64);

impl Digest {
    fn add(&mut self, bytes: &[u8]) {
        for &byte in bytes {
            self.0 = (self.0 ^ byte as u64).wrapping_mul(0x0000_0100_0000_01B3);
        }
    }

    /// The length of a message, and the words of the first, the last and some rank.
    fn add_strips(&mut self, rng: &mut Rng, f: &Figures) {
        let mut figures = [0; 4];
        (PROVED.figures)(numbers(f), &mut figures);
        self.add(&(figures[2] as u32).to_be_bytes());
        for rank in [0, f.t - 1, rng.below(f.t)] {
            let starts = start_bytes(&unrank(f, rank)[..f.m]);
            let message: Vec<u8> = (0..f.k).map(|_| rng.below(f.q as u64) as u8).collect();
            let mut word = vec![0xEE; f.n];
            let answer = (PROVED.encode)(numbers(f), &starts, &message, &mut word);
            self.add(&[answer]);
            self.add(&word);
        }
    }
}

fn digest() -> u64 {
    let mut digest = Digest(0xCBF2_9CE4_8422_2325);
    let mut rng = Rng::new(1996);
    for n in (3..=1024).step_by(7).chain([1022, 1023, 1024]) {
        for q in [2, 3, 4, 17, 255, 256] {
            for m in 1..=6 {
                let fitting = |b: &u32| Figures::new(n, q, m, *b).is_ok();
                let Some(largest) = (1..=n / 3).rev().find(fitting) else {
                    continue;
                };
                for b in [1, largest.div_ceil(2), largest] {
                    if let Ok(f) = Figures::new(n, q, m, b) {
                        digest.add_strips(&mut rng, &f);
                    }
                }
            }
        }
    }
    digest.0
}

pub fn run(judge: &mut Judge) {
    let found = digest();
    let inputs = || format!("digest {found:#018X}");
    let what = "a strip within the former limits has another word";
    judge.expect(Op::Encode, found == DIGEST, &inputs, what);
}
