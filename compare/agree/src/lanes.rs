//! Words side by side: strips worn in stretches, whose words are written on their covers, damaged there and read back.

use second::lanes::MAX_DEPTH;
use second::Figures;

use crate::judge::{Judge, Op};
use crate::make::{found, numbers, symbols, wrong_len};
use crate::rng::Rng;

/// Where a stretch of the strip begins, and where it ends.
type Stretch = std::ops::Range<usize>;

/// One round for these figures, at this depth.
pub fn round(judge: &mut Judge, rng: &mut Rng, f: Figures, depth: u32) {
    let worn = stretches(rng, &f, depth as usize);
    let lanes: Vec<Lane> = (0..depth as usize)
        .map(|lane| written(judge, rng, &f, map(&f, depth as usize, lane, &worn)))
        .collect();
    let words: Vec<u8> = lanes.iter().flat_map(|lane| lane.word.clone()).collect();
    let laid = judge.interleave(numbers(&f), depth, &words, words.len());
    let mut strip = laid.out;
    for stretch in worn {
        let len = stretch.len();
        strip[stretch].copy_from_slice(&found(rng, f.q, len));
    }
    let taken = judge.deinterleave(numbers(&f), depth, &strip, words.len());
    let inputs = || format!("{f:?} depth {depth}");
    judge.expect(
        Op::Interleave,
        laid.number == 0,
        &inputs,
        "words were refused",
    );
    judge.expect(
        Op::Deinterleave,
        taken.number == 0,
        &inputs,
        "a strip was refused",
    );
    for (lane, word) in lanes.iter().zip(taken.out.chunks_exact(f.n)) {
        read_back(judge, &f, lane, word);
    }
    refused(judge, rng, &f, depth, &words);
}

/// At most m stretches that don't meet, each of at most depth * b cells, often as long as that, and apart or side by side.
fn stretches(rng: &mut Rng, f: &Figures, depth: usize) -> Vec<Stretch> {
    let longest = depth * f.b;
    let count = f.m - rng.pick(&[0, 0, 0, 1, 2]).min(f.m);
    let shorter = rng.once_in(2);
    let lens: Vec<usize> = (0..count)
        .map(|_| longest - if shorter { rng.index(longest) } else { 0 })
        .collect();
    let cells = depth * f.n;
    let together = rng.index(cells);
    let apart = rng.once_in(2);
    let mut wanted: Vec<usize> = (0..count)
        .map(|_| if apart { rng.index(cells) } else { together })
        .collect();
    wanted.sort_unstable();
    let (mut free, mut rest) = (0, lens.iter().sum::<usize>());
    let place = |(want, len): (usize, &usize)| {
        let start = want.max(free).min(cells - rest);
        (free, rest) = (start + len, rest - len);
        start..start + len
    };
    wanted.into_iter().zip(&lens).map(place).collect()
}

/// The map of one word of the strip.
fn map(f: &Figures, depth: usize, lane: usize, worn: &[Stretch]) -> Vec<u8> {
    let inside = |i: usize| {
        worn.iter()
            .any(|stretch| stretch.contains(&(i * depth + lane)))
    };
    (0..f.n).map(|i| inside(i) as u8).collect()
}

/// One word of a strip, on its cover.
struct Lane {
    starts: Vec<u8>,
    message: Vec<u8>,
    word: Vec<u8>,
}

fn written(judge: &mut Judge, rng: &mut Rng, f: &Figures, map: Vec<u8>) -> Lane {
    let cover = judge.cover(numbers(f), &map, 2 * f.m);
    let message = symbols(rng, f.q, f.k);
    let word = judge.encode(numbers(f), &cover.out, &message, f.n);
    let inputs = || format!("{f:?} {map:?}");
    judge.expect(
        Op::Cover,
        cover.number == 0,
        &inputs,
        "a word's map wasn't covered",
    );
    judge.expect(Op::Encode, word.number == 0, &inputs, "a cover was refused");
    Lane {
        starts: cover.out,
        message,
        word: word.out,
    }
}

fn read_back(judge: &mut Judge, f: &Figures, lane: &Lane, word: &[u8]) {
    let read = judge.decode(numbers(f), word, f.k, 2 * f.m);
    let right = read.number == 0 && read.out == lane.message && read.also == lane.starts;
    let inputs = || format!("{f:?} {:?} side by side", lane.starts);
    judge.expect(Op::Decode, right, &inputs, "not what was written");
}

/// One thing wrong with either call, and sometimes several; a value q is wrong in laying alone.
fn refused(judge: &mut Judge, rng: &mut Rng, f: &Figures, depth: u32, words: &[u8]) {
    for apart in [false, true] {
        let mut from = words.to_vec();
        let (mut to, mut depth) = (words.len(), depth);
        for _ in 0..rng.pick(&[1, 1, 2, 3]) {
            match rng.below(5) {
                0 => {
                    depth = rng.pick(&[0, MAX_DEPTH + 1, 256 + depth, (1 << 16) + depth, u32::MAX])
                }
                1 => depth = rng.between(1, MAX_DEPTH as u64) as u32,
                2 => from.resize(wrong_len(rng, from.len()), 0),
                3 => to = wrong_len(rng, to),
                _ if !from.is_empty() => {
                    let at = rng.index(from.len());
                    from[at] = rng.between(f.q as u64 - 1, 255) as u8;
                }
                _ => {}
            }
        }
        match apart {
            false => judge.interleave(numbers(f), depth, &from, to),
            true => judge.deinterleave(numbers(f), depth, &from, to),
        };
    }
}
