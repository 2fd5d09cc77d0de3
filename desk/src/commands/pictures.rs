//! Pictures of strips, and of rates.

use std::fs;

use crate::desk::{Desk, Outcome};
use crate::hints::about_strip;
use crate::picture::{rates, text, vector, Picture};
use crate::trouble::{Hinted, Trouble};
use crate::words::Words;

/// `--svg FILE` or nothing, to the end of the command.
fn svg_file(words: &mut Words) -> Result<Option<String>, Trouble> {
    let file = match words.skip("--svg") {
        true => Some(words.next("the SVG file")?.to_owned()),
        false => None,
    };
    words.end()?;
    Ok(file)
}

fn kept(path: &str, svg: &str) -> Outcome {
    fs::write(path, svg)
        .map_err(|error| Trouble::wrong(path, format!("this file can't be written: {error}")))?;
    Ok(format!("drawn in {path}").into())
}

pub fn show(desk: &mut Desk, words: &mut Words) -> Outcome {
    let figures = desk.figures()?;
    let strip = desk.strip(words)?;
    let file = svg_file(words)?;
    let picture =
        Picture::of(&figures, &strip).hinted(|refusal| about_strip(&figures, &strip, refusal))?;
    let mut answer = match file {
        Some(path) => kept(&path, &vector::drawn(&picture))?,
        None => text::drawn(&picture, desk.colour).into(),
    };
    answer.is_no = picture.refusal.is_some();
    Ok(answer)
}

pub fn rates(desk: &mut Desk, words: &mut Words) -> Outcome {
    let [n, q, m] = match words.peek() {
        None | Some("--svg") => {
            let numbers = desk.figures()?.numbers;
            [numbers.n, numbers.q, numbers.m].map(|number| number as u32)
        }
        Some(_) => [
            words.number("n", u32::MAX)?,
            words.number("q", u32::MAX)?,
            words.number("m", u32::MAX)?,
        ],
    };
    let file = svg_file(words)?;
    let rates = rates::Rates::of(n, q, m)?;
    match file {
        Some(path) => kept(&path, &rates.svg()),
        None => Ok(rates.table().into()),
    }
}
