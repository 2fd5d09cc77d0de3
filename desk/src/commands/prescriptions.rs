//! Prescriptions written and read, and single eyes.

use burgzemi::Prescription;

use super::jobs;
use crate::desk::{Desk, Outcome};
use crate::eyes;
use crate::hints::{about_starts, about_strip, silent};
use crate::place::{listed, Place};
use crate::trouble::Hinted;
use crate::words::Words;

pub fn prescribe(desk: &mut Desk, words: &mut Words) -> Outcome {
    let figures = desk.figures()?;
    let number = jobs::number(words)?;
    let order = eyes::prescription(words)?;
    let starts = Place::take(words)?.starts(&figures)?;
    let word = figures
        .prescription_write(&desk.table.read()?, &starts, number, &order)
        .hinted(|refusal| about_starts(&figures, &starts, refusal))?;
    Ok(desk.written(&starts, word))
}

pub fn read(desk: &mut Desk, words: &mut Words) -> Outcome {
    let figures = desk.figures()?;
    let strip = desk.one_strip(words)?;
    let (number, order): (u32, Prescription) = figures
        .prescription_read(&desk.table.read()?, &strip)
        .hinted(|refusal| about_strip(&figures, &strip, refusal))?;
    let starts = listed(&figures.decode(&strip)?.starts);
    let (fields, silent) = (eyes::fields(&order).join("\n"), silent(&figures, &strip));
    Ok(format!("job {number}\n{fields}\nstarts{starts}{silent}").into())
}

pub fn transpose(_: &mut Desk, words: &mut Words) -> Outcome {
    let eye = eyes::eye(words)?;
    words.end()?;
    Ok(eyes::shown(eye.transpose()?).into())
}

pub fn equivalent(_: &mut Desk, words: &mut Words) -> Outcome {
    let eye = eyes::eye(words)?;
    words.end()?;
    Ok(eyes::power(eye.spherical_equivalent()?).into())
}
