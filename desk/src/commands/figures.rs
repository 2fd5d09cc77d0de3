//! Setting the figures.

use crate::desk::{Desk, Outcome};
use crate::figures::Figures;
use crate::job_text;
use crate::trouble::Trouble;
use crate::words::Words;

/// Takes one number for each name, to the end of the command.
fn numbers<const N: usize>(words: &mut Words, names: [&str; N]) -> Result<[u32; N], Trouble> {
    let mut numbers = [0; N];
    for (number, name) in numbers.iter_mut().zip(names) {
        *number = words.number(name, u32::MAX)?;
    }
    words.end()?;
    Ok(numbers)
}

/// Refused figures leave the former ones alone.
fn set(desk: &mut Desk, figures: Figures) -> Outcome {
    desk.figures = Some(figures);
    Ok(described(&figures).into())
}

fn described(figures: &Figures) -> String {
    let room = match job_text::room(figures) {
        0 => "there is no room for a job".into(),
        room => format!("a job's text has up to {room} bytes"),
    };
    format!(
        "{figures}\na message has {} symbols, and {room}",
        figures.message_len()
    )
}

pub fn ranked(desk: &mut Desk, words: &mut Words) -> Outcome {
    if words.peek().is_none() {
        return Ok(described(&desk.figures()?).into());
    }
    let [n, q, m, b] = numbers(words, ["n", "q", "m", "b"])?;
    set(desk, Figures::a(n, q, m, b)?)
}

pub fn long(desk: &mut Desk, words: &mut Words) -> Outcome {
    let [n, q, b] = numbers(words, ["n", "q", "b"])?;
    set(desk, Figures::b(n, q, b)?)
}

pub fn larsson(desk: &mut Desk, words: &mut Words) -> Outcome {
    let [n, q, m, b] = numbers(words, ["n", "q", "m", "b"])?;
    set(desk, Figures::larsson(n, q, m, b)?)
}
