//! The geometry of pictures, which is the desk's own, held to the proved library on seeded random strips of the three codes.

mod rng;

use burgzemi::Refusal;
use desk::figures::{CodeName, Figures};
use desk::picture::geometry::{bursts, cut, rank};
use desk::picture::{Cell, Kind, Picture};
use rng::Rng;

const STRIPS: usize = 1500;

/// Figures that fit, of a code that is drawn first so that each gets its share.
fn figures(rng: &mut Rng) -> Figures {
    let code = rng.below(3);
    loop {
        let q = [2, 3, 4, 5, 16, 17, 255, 256][rng.below(8)] as u32;
        let n = 3 + [40, 130, 900][rng.below(3)].min(rng.below(900)) as u32;
        let (m, b) = (1 + rng.below(8) as u32, 1 + rng.below(24) as u32);
        let found = match code {
            0 => Figures::a(n, q, m, b),
            1 => Figures::b(n, q, b),
            _ => Figures::larsson(n, q, m, b),
        };
        if let Ok(figures) = found {
            return figures;
        }
    }
}

/// Bursts that are disjoint and in the word: sorted reduced starts, with b - 1 more for each burst before.
fn starts(rng: &mut Rng, figures: &Figures) -> Vec<u16> {
    let (n, m, b) = (figures.numbers.n, figures.numbers.m, figures.numbers.b);
    let mut chosen: Vec<usize> = (0..m).map(|_| rng.below(n - m * b + 1)).collect();
    chosen.sort_unstable();
    chosen
        .iter()
        .enumerate()
        .map(|(i, start)| (start + i * b) as u16)
        .collect()
}

struct Sample {
    figures: Figures,
    starts: Vec<u16>,
    message: Vec<u8>,
    word: Vec<u8>,
    picture: Picture,
}

/// A freshly written word and its picture.
fn sample(rng: &mut Rng) -> Sample {
    let figures = figures(rng);
    let starts = starts(rng, &figures);
    let message: Vec<u8> = (0..figures.message_len())
        .map(|_| rng.below(figures.numbers.q) as u8)
        .collect();
    let word = figures
        .encode(&starts, &message)
        .expect("a valid placement and message");
    let picture = Picture::of(&figures, &word).expect("a written word");
    Sample {
        figures,
        starts,
        message,
        word,
        picture,
    }
}

fn samples() -> impl Iterator<Item = Sample> {
    let mut rng = Rng(2026);
    (0..STRIPS).map(move |_| sample(&mut rng))
}

/// The values of the cells of one sort, in order.
fn values(sample: &Sample, cell: Cell) -> Vec<u8> {
    let pairs = sample.picture.cells.iter().zip(&sample.word);
    pairs
        .filter(|(found, _)| **found == cell)
        .map(|(_, value)| *value)
        .collect()
}

#[test]
fn message_cells_are_the_message() {
    for sample in samples() {
        assert_eq!(
            values(&sample, Cell::Message),
            sample.message,
            "{} {:?}",
            sample.figures,
            sample.starts
        );
    }
}

#[test]
fn burst_cells_are_the_bursts() {
    for sample in samples() {
        let mut cells = vec![false; sample.word.len()];
        bursts(&sample.starts, sample.figures.numbers.b).for_each(|burst| cells[burst].fill(true));
        let drawn: Vec<bool> = sample
            .picture
            .cells
            .iter()
            .map(|cell| *cell == Cell::Burst)
            .collect();
        assert_eq!(drawn, cells, "{} {:?}", sample.figures, sample.starts);
        assert!(sample.picture.note.starts_with("starts"));
    }
}

#[test]
fn fixed_cells_hold_zero() {
    let mut seen = 0;
    for sample in samples() {
        let fixed = values(&sample, Cell::Fixed);
        assert!(
            fixed.iter().all(|value| *value == 0),
            "{} {:?}",
            sample.figures,
            sample.starts
        );
        let blocks = sample
            .picture
            .blocks
            .iter()
            .filter(|block| block.kind == Kind::Fixed);
        assert_eq!(blocks.count(), fixed.len());
        seen += fixed.len();
    }
    assert!(seen > STRIPS);
}

/// What the digit cells spell: the rank, over all index blocks or in each bearer; for Construction B how far into its part the burst ends.
#[test]
fn digit_cells_spell_the_placement() {
    for sample in samples() {
        let (q, b) = (sample.figures.numbers.q as u128, sample.figures.numbers.b);
        let spelled = |cells: &[u8]| {
            cells
                .iter()
                .fold(0, |value, digit| value * q + u128::from(*digit))
        };
        let named = format!("{} {:?}", sample.figures, sample.starts);
        match sample.figures.code() {
            CodeName::Larsson => {
                let bearers = sample
                    .picture
                    .blocks
                    .iter()
                    .filter(|block| block.kind == Kind::Bearer);
                for bearer in bearers {
                    assert_eq!(
                        spelled(&sample.word[bearer.cells.clone()]),
                        rank(&sample.starts, b),
                        "{named}"
                    );
                }
            }
            code => {
                let wanted = match code {
                    CodeName::A => rank(&sample.starts, b),
                    _ => end_offset(&sample) as u128,
                };
                assert_eq!(index_value(&sample, q), wanted, "{named}");
            }
        }
    }
}

/// The value over all index blocks: in each, one digit below q - 1, stored plus 1, then others below q.
fn index_value(sample: &Sample, q: u128) -> u128 {
    let index = sample
        .picture
        .blocks
        .iter()
        .filter(|block| block.kind == Kind::Index);
    index.fold(0, |value, block| {
        let cells = block
            .cells
            .clone()
            .filter(|at| sample.picture.cells[*at] == Cell::Digit);
        cells.fold(value, |value, at| match at == block.cells.start {
            true => value * (q - 1) + u128::from(sample.word[at]) - 1,
            false => value * q + u128::from(sample.word[at]),
        })
    })
}

fn end_offset(sample: &Sample) -> usize {
    let last = usize::from(sample.starts[0]) + sample.figures.numbers.b - 1;
    let parts = cut(0..sample.figures.numbers.n, 3);
    last - parts
        .iter()
        .find(|part| part.contains(&last))
        .expect("a part")
        .start
}

/// Whatever a burst cell holds, the answer stays; whatever another cell holds, it doesn't, or the word is refused.
#[test]
fn damage_in_burst_cells_alone_does_no_harm() {
    let mut rng = Rng(7);
    for sample in samples().take(STRIPS / 3) {
        let q = sample.figures.numbers.q;
        for at in 0..sample.word.len() {
            let mut found = sample.word.clone();
            found[at] = ((usize::from(found[at]) + 1 + rng.below(q - 1)) % q) as u8;
            let reading = sample.figures.decode(&found);
            let same = reading.is_ok_and(|reading| {
                reading.message == sample.message && reading.starts == sample.starts
            });
            let burst = sample.picture.cells[at] == Cell::Burst;
            assert_eq!(
                same, burst,
                "{} {:?} at {at}",
                sample.figures, sample.starts
            );
        }
    }
}

/// All bursts at once, with silent cells where there are any: the same picture but for the values.
#[test]
fn worn_words_have_the_same_picture() {
    let mut rng = Rng(11);
    for sample in samples() {
        let q = sample.figures.numbers.q;
        let mut found = sample.word.clone();
        for at in (0..found.len()).filter(|at| sample.picture.cells[*at] == Cell::Burst) {
            found[at] = rng.below((q + 1).min(256)) as u8;
        }
        let picture = Picture::of(&sample.figures, &found).expect("bursts may hold anything");
        assert_eq!(
            (picture.cells, picture.blocks),
            (sample.picture.cells, sample.picture.blocks)
        );
    }
}

/// A refused word is drawn too: every cell once, heads of 0 as ones that look fixed, and no placement.
#[test]
fn refused_words_are_drawn() {
    let mut rng = Rng(3);
    let mut refused = 0;
    for sample in samples() {
        let q = sample.figures.numbers.q;
        let found: Vec<u8> = sample.word.iter().map(|_| rng.below(q) as u8).collect();
        let picture = Picture::of(&sample.figures, &found).expect("a word of n values is drawn");
        let cells: Vec<usize> = picture
            .blocks
            .iter()
            .flat_map(|block| block.cells.clone())
            .collect();
        assert_eq!(cells, (0..found.len()).collect::<Vec<usize>>());
        if picture.refusal.is_none() {
            continue;
        }
        refused += 1;
        for block in &picture.blocks {
            let looks_fixed = block.kind == Kind::LooksFixed;
            let begins =
                found[block.cells.start] == 0 && sample.figures.code() != CodeName::Larsson;
            assert_eq!(looks_fixed, begins);
        }
        assert!(picture
            .cells
            .iter()
            .all(|cell| matches!(cell, Cell::Fixed | Cell::Unknown)));
    }
    assert!(refused > STRIPS / 2);
    let figures = Figures::a(30, 2, 1, 3).expect("these fit");
    let short = Picture::of(&figures, &[0; 29])
        .err()
        .expect("another length");
    assert_eq!(short, Refusal::LENGTH);
}
