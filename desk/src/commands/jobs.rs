//! Calls on the job table.

use burgzemi::{Refusal, Table};

use crate::desk::{Desk, Outcome};
use crate::table::{self, SLOTS};
use crate::trouble::Trouble;
use crate::words::Words;

type Call = fn(&mut Table, u32) -> Result<(), Refusal>;

pub fn number(words: &mut Words) -> Result<u32, Trouble> {
    words.number("the job number", u32::MAX)
}

/// Makes a call, and says what the number is in the table that is kept now.
pub fn call(desk: &Desk, words: &mut Words, call: Call) -> Outcome {
    let number = number(words)?;
    words.end()?;
    let kept = desk.table.change(|table| call(table, number))?;
    Ok(format!("job {number}: {}", table::status(&kept, number)).into())
}

pub fn list(desk: &mut Desk, words: &mut Words) -> Outcome {
    words.end()?;
    let entries = table::taken(&desk.table.read()?);
    let mut text = format!("{} of {SLOTS} slots are taken", entries.len());
    for entry in entries {
        text += &format!(
            "\n  job {}: {}",
            entry.number,
            table::state_text(entry.state)
        );
    }
    Ok(text.into())
}
