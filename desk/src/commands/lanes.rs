//! Words side by side on one strip.

use crate::desk::{Desk, Outcome};
use crate::hex;
use crate::trouble::{Hinted, Trouble};
use crate::words::Words;

pub fn serve(desk: &mut Desk, words: &mut Words) -> Outcome {
    match words.next("lay or take")? {
        "lay" => lay(desk, words),
        "take" => take(desk, words),
        other => Err(Trouble::wrong(other, "here stands lay or take")),
    }
}

fn depth(words: &mut Words) -> Result<u32, Trouble> {
    words.number("the depth", u32::MAX)
}

/// The library sees all words in one, so that a word that is too long and one that is too short would make up for each other: each is measured here first.
fn lay(desk: &Desk, words: &mut Words) -> Outcome {
    let figures = desk.figures()?;
    let depth = depth(words)?;
    let mut laid = Vec::new();
    let mut count = 0;
    while words.peek().is_some() {
        let word = desk.strip(words)?;
        let (len, n) = (word.len(), figures.numbers.n);
        if len != n {
            return Err(Trouble::wrong(
                &hex::shown(&word),
                format!("this word has {len} cells, and n is {n}"),
            ));
        }
        laid.extend(word);
        count += 1;
    }
    let strip = figures
        .interleave(depth, &laid)
        .hinted(|_| format!("depth {depth}, and {count} words"))?;
    Ok(format!("strip {}", hex::shown(&strip)).into())
}

fn take(desk: &Desk, words: &mut Words) -> Outcome {
    let figures = desk.figures()?;
    let depth = depth(words)?;
    let strip = desk.one_strip(words)?;
    let (len, n) = (strip.len(), figures.numbers.n);
    let taken = figures
        .deinterleave(depth, &strip)
        .hinted(|_| format!("depth {depth}, n {n}, and a strip of {len} cells"))?;
    let lines: Vec<String> = taken
        .chunks_exact(n)
        .map(|word| format!("word {}", hex::shown(word)))
        .collect();
    Ok(lines.join("\n").into())
}
