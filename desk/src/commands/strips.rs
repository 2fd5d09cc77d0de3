//! Strips written and read, checked and moved.

use burgzemi::Table;

use super::jobs;
use crate::desk::{Answer, Desk, Outcome};
use crate::figures::Figures;
use crate::hex;
use crate::hints::{about_lists, about_starts, about_strip, silent};
use crate::job_text;
use crate::place::{self, listed, Place};
use crate::trouble::{Hinted, Trouble};
use crate::words::Words;

/// The next word as a message.
fn message(words: &mut Words) -> Result<Vec<u8>, Trouble> {
    hex::cells(words.next("the message in hex")?)
}

pub fn cover(desk: &mut Desk, words: &mut Words) -> Outcome {
    let starts = place::cover(&desk.figures()?, &words.until(&[]))?;
    Ok(format!("starts{}", listed(&starts)).into())
}

pub fn write(desk: &mut Desk, words: &mut Words) -> Outcome {
    let figures = desk.figures()?;
    let number = jobs::number(words)?;
    let text = words.next("the text in quotes")?.to_owned();
    let place = Place::take(words)?;
    let payload = job_text::payload(&figures, number, &text)?;
    let starts = place.starts(&figures)?;
    let word = figures
        .job_write(&desk.table.read()?, &starts, &payload)
        .hinted(|refusal| about_starts(&figures, &starts, refusal))?;
    Ok(desk.written(&starts, word))
}

pub fn encode(desk: &mut Desk, words: &mut Words) -> Outcome {
    let figures = desk.figures()?;
    let message = message(words)?;
    let starts = Place::take(words)?.starts(&figures)?;
    let word = figures
        .encode(&starts, &message)
        .hinted(|refusal| about_lists(&figures, &starts, &message, refusal))?;
    Ok(desk.written(&starts, word))
}

pub fn read(desk: &mut Desk, words: &mut Words) -> Outcome {
    let figures = desk.figures()?;
    let strip = desk.one_strip(words)?;
    let payload = figures
        .job_read(&desk.table.read()?, &strip)
        .hinted(|refusal| about_strip(&figures, &strip, refusal))?;
    let (number, text) = job_text::taken_apart(&payload);
    let starts = listed(&figures.decode(&strip)?.starts);
    let silent = silent(&figures, &strip);
    Ok(format!(
        "job {number}\ntext {}\nstarts{starts}{silent}",
        job_text::shown(text)
    )
    .into())
}

pub fn decode(desk: &mut Desk, words: &mut Words) -> Outcome {
    let figures = desk.figures()?;
    let strip = desk.one_strip(words)?;
    let reading = figures
        .decode(&strip)
        .hinted(|refusal| about_strip(&figures, &strip, refusal))?;
    let (message, starts) = (hex::shown(&reading.message), listed(&reading.starts));
    Ok(format!(
        "message {message}\nstarts{starts}{}",
        silent(&figures, &strip)
    )
    .into())
}

/// The frame maker's check: the list has a message, or a job whose message the library makes. The desk's own table is not asked.
pub fn check(desk: &mut Desk, words: &mut Words) -> Outcome {
    let figures = desk.figures()?;
    let strip = desk.strip(words)?;
    words.expect("at")?;
    let starts = place::starts(words, &["job", "message"])?;
    let message = listed_message(&figures, &starts, words)?;
    let agrees = figures
        .verify(&starts, &message, &strip)
        .hinted(|refusal| match about_strip(&figures, &strip, refusal) {
            said if said.is_empty() => about_lists(&figures, &starts, &message, refusal),
            said => said,
        })?;
    let text = match agrees {
        true => "yes: the strip holds what the list says",
        false => "no: the strip differs from the list outside its bursts",
    };
    Ok(Answer {
        text: text.into(),
        is_no: !agrees,
    })
}

/// `message HEX`, or `job NUMBER "TEXT"`, to the end of the command. Only these words end the starts in front of it.
fn listed_message(
    figures: &Figures,
    starts: &[u16],
    words: &mut Words,
) -> Result<Vec<u8>, Trouble> {
    let is_message = words.next("job or message")? == "message";
    if is_message {
        let message = message(words)?;
        words.end()?;
        return Ok(message);
    }
    let (number, text) = (
        jobs::number(words)?,
        words.next("the text in quotes")?.to_owned(),
    );
    words.end()?;
    let payload = job_text::payload(figures, number, &text)?;
    // A table with this job alone, open, lets the library write the job's word, whose message is then read.
    let mut table = Table::new();
    table.open(number)?;
    let word = figures
        .job_write(&table, starts, &payload)
        .hinted(|refusal| about_starts(figures, starts, refusal))?;
    Ok(figures.decode(&word)?.message)
}

pub fn move_strip(desk: &mut Desk, words: &mut Words) -> Outcome {
    let figures = desk.figures()?;
    let strip = desk.one_strip(words)?;
    let (code, moved) = figures
        .move_strip(&desk.table.read()?, &strip)
        .hinted(|refusal| about_strip(&figures, &strip, refusal))?;
    let text = format!(
        "moved {}\nnow a strip of the other code: {code}, with the same figures and starts",
        hex::shown(&moved)
    );
    desk.last = Some(moved);
    Ok(text.into())
}
