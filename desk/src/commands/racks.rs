//! Racks: a file of strips, one a line.

use std::collections::BTreeMap;
use std::fs;

use burgzemi::Table;

use crate::desk::{Answer, Desk, Outcome};
use crate::eyes;
use crate::figures::Figures;
use crate::hex;
use crate::job_text;
use crate::place::listed;
use crate::refusals;
use crate::trouble::Trouble;
use crate::words::Words;

/// How often the progress line is renewed, in strips.
const RENEWED: usize = 100;

#[derive(Clone, Copy)]
enum Sought {
    Jobs,
    Prescriptions,
    Messages,
}

/// What became of the strips so far.
#[derive(Default)]
struct Tally {
    lines: Vec<String>,
    read: usize,
    refused: BTreeMap<u8, usize>,
    wrong: usize,
}

pub fn rack(desk: &mut Desk, words: &mut Words) -> Outcome {
    let figures = desk.figures()?;
    let path = words.next("the rack's file")?.to_owned();
    let sought = sought(words)?;
    words.end()?;
    let text = fs::read_to_string(&path)
        .map_err(|error| Trouble::wrong(&path, format!("this file can't be read: {error}")))?;
    // One table for all strips, so that the rack is judged as of one moment.
    let table = desk.table.read()?;
    let mut tally = Tally::default();
    let lines: Vec<(usize, &str)> = strips(&text).collect();
    for (done, (line, strip)) in lines.iter().enumerate() {
        if desk.progress && done % RENEWED == 0 {
            eprint!("\r{done} of {} strips", lines.len());
        }
        tally.count(*line, read(&figures, &table, sought, strip));
    }
    if desk.progress {
        eprint!("\r\x1b[K");
    }
    Ok(tally.answer())
}

fn sought(words: &mut Words) -> Result<Sought, Trouble> {
    if words.peek().is_none() {
        return Ok(Sought::Jobs);
    }
    match words.next("what is read")? {
        "jobs" => Ok(Sought::Jobs),
        "prescriptions" => Ok(Sought::Prescriptions),
        "messages" => Ok(Sought::Messages),
        other => Err(Trouble::wrong(
            other,
            "what is read are jobs, prescriptions or messages",
        )),
    }
}

/// The lines that have a strip, with their numbers. A # begins a comment.
fn strips(text: &str) -> impl Iterator<Item = (usize, &str)> {
    let lines = text.lines().enumerate();
    lines
        .map(|(at, line)| (at + 1, line.split('#').next().unwrap_or("").trim()))
        .filter(|(_, strip)| !strip.is_empty())
}

fn read(figures: &Figures, table: &Table, sought: Sought, strip: &str) -> Result<String, Trouble> {
    let strip = hex::cells(strip)?;
    let found = match sought {
        Sought::Jobs => {
            let payload = figures.job_read(table, &strip)?;
            let (number, text) = job_text::taken_apart(&payload);
            format!("job {number}, text {}", job_text::shown(text))
        }
        Sought::Prescriptions => {
            let (number, order) = figures.prescription_read(table, &strip)?;
            format!("job {number}, {}", eyes::fields(&order).join(", "))
        }
        Sought::Messages => format!("message {}", hex::shown(&figures.decode(&strip)?.message)),
    };
    Ok(format!(
        "{found}, starts{}",
        listed(&figures.decode(&strip)?.starts)
    ))
}

impl Tally {
    /// Whatever is no refusal is a word that is no strip.
    fn count(&mut self, line: usize, outcome: Result<String, Trouble>) {
        let said = match outcome {
            Ok(said) => {
                self.read += 1;
                said
            }
            Err(Trouble::Refused(refusal, _)) => {
                let number = refusal.number();
                *self.refused.entry(number).or_default() += 1;
                format!("refused {number}: {}", refusals::said(number).0)
            }
            Err(trouble) => {
                self.wrong += 1;
                trouble.to_string()
            }
        };
        self.lines.push(format!("{line}: {said}"));
    }

    fn answer(mut self) -> Answer {
        let refused: usize = self.refused.values().sum();
        let count = self.lines.len();
        let strips = if count == 1 { "strip" } else { "strips" };
        self.lines.push(format!(
            "{count} {strips}: {} read, {refused} refused, {} wrong",
            self.read, self.wrong
        ));
        for (number, count) in &self.refused {
            self.lines.push(format!(
                "  {count} with {number}: {}",
                refusals::said(*number).0
            ));
        }
        Answer {
            text: self.lines.join("\n"),
            is_no: refused + self.wrong > 0,
        }
    }
}
