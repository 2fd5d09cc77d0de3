//! What the desk can add to the library's refusal: which of the things that were handed over it was.

use burgzemi::Refusal;

use crate::figures::Figures;
use crate::job_text;
use crate::place::listed;

/// What a prescription takes of a job's text, in bytes.
const PRESCRIPTION: usize = 13;

/// The positions of values that are wanted, one space in front of each.
fn positions(values: &[u8], wanted: impl Fn(usize) -> bool) -> String {
    let found = values
        .iter()
        .enumerate()
        .filter(|(_, value)| wanted(usize::from(**value)));
    listed(&found.map(|(at, _)| at).collect::<Vec<usize>>())
}

/// A line that names a strip's silent cells, where it has any. A q of 256 has none.
pub fn silent(figures: &Figures, strip: &[u8]) -> String {
    match positions(strip, |value| value == figures.numbers.q) {
        none if none.is_empty() => none,
        silent => format!("\nsilent{silent}"),
    }
}

/// Of a strip that was read: its length, which of its cells are silent, or which hold too large a value.
pub fn about_strip(figures: &Figures, strip: &[u8], refusal: Refusal) -> String {
    let (len, n, q) = (strip.len(), figures.numbers.n, figures.numbers.q);
    match refusal {
        Refusal::LENGTH if len != n => format!("the strip's length is {len}, and n is {n}"),
        Refusal::SYMBOL => match positions(strip, |value| value > q) {
            none if none.is_empty() => none,
            above => format!("above q at{above}"),
        },
        Refusal::SILENT => silent(figures, strip).trim_start().to_owned(),
        Refusal::PRESCRIPTION => about_room(figures),
        _ => String::new(),
    }
}

fn about_room(figures: &Figures) -> String {
    match job_text::room(figures) {
        room if room < PRESCRIPTION => {
            format!("the text has room for {room} bytes, and a prescription takes {PRESCRIPTION}")
        }
        _ => String::new(),
    }
}

/// Of a job's writing: how many starts there are, or how much room for a prescription.
pub fn about_starts(figures: &Figures, starts: &[u16], refusal: Refusal) -> String {
    let (count, m) = (starts.len(), figures.numbers.m);
    match refusal {
        Refusal::LENGTH if count != m => format!("the starts are {count}, and m is {m}"),
        Refusal::PRESCRIPTION => about_room(figures),
        _ => String::new(),
    }
}

/// Of a message and starts.
pub fn about_lists(figures: &Figures, starts: &[u16], message: &[u8], refusal: Refusal) -> String {
    let (len, k, q) = (message.len(), figures.message_len(), figures.numbers.q);
    match refusal {
        Refusal::LENGTH if len != k => format!("the message's length is {len}, and k is {k}"),
        Refusal::SYMBOL => format!(
            "q or more in the message at{}",
            positions(message, |value| value >= q)
        ),
        _ => about_starts(figures, starts, refusal),
    }
}
