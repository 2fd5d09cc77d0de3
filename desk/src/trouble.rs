//! Why a command gave no answer.

use std::fmt;

use burgzemi::Refusal;

use crate::refusals;

#[derive(Debug)]
pub enum Trouble {
    /// A word that can't be understood.
    Wrong(String),
    /// The library's refusal, and what the desk can add to it, or nothing.
    Refused(Refusal, String),
    /// Something that isn't done here, or now: figures that don't have it, or a table's file that can't be used.
    Unserved(String),
}

/// The longest word that a message repeats whole.
const SHOWN: usize = 24;

impl Trouble {
    /// A word that is wrong, and what should stand in its place.
    pub fn wrong(word: &str, wanted: impl fmt::Display) -> Trouble {
        Trouble::Wrong(format!("{}: {wanted}", named(word)))
    }
}

/// Outcomes whose refusal the desk can add something to.
pub trait Hinted<T> {
    fn hinted(self, more: impl FnOnce(Refusal) -> String) -> Result<T, Trouble>;
}

impl<T, E: Into<Trouble>> Hinted<T> for Result<T, E> {
    fn hinted(self, more: impl FnOnce(Refusal) -> String) -> Result<T, Trouble> {
        self.map_err(|trouble| match trouble.into() {
            Trouble::Refused(refusal, _) => Trouble::Refused(refusal, more(refusal)),
            other => other,
        })
    }
}

/// A word as messages name it: in quotes, shortened where it is long, and without anything that a terminal would act on.
pub fn named(word: &str) -> String {
    let (len, end) = match word.chars().count() {
        count if count <= SHOWN => (count, ""),
        _ => (SHOWN - 2, ".."),
    };
    let mut name = String::from("'");
    for c in word.chars().take(len) {
        match is_printable(c) {
            true => name.push(c),
            false => name.extend(c.escape_unicode()),
        }
    }
    name + end + "'"
}

/// Letters, digits and ASCII's signs.
pub fn is_printable(c: char) -> bool {
    matches!(c, ' '..='~') || c.is_alphanumeric()
}

impl From<Refusal> for Trouble {
    fn from(refusal: Refusal) -> Trouble {
        Trouble::Refused(refusal, String::new())
    }
}

impl fmt::Display for Trouble {
    fn fmt(&self, f: &mut fmt::Formatter<'_>) -> fmt::Result {
        match self {
            Trouble::Wrong(said) => write!(f, "wrong: {said}"),
            Trouble::Unserved(said) => write!(f, "not served: {said}"),
            Trouble::Refused(refusal, more) => {
                let number = refusal.number();
                let (words, helps) = refusals::said(number);
                write!(f, "refused {number}: {words}")?;
                if !more.is_empty() {
                    write!(f, "\n  here: {more}")?;
                }
                write!(f, "\n{}", refusals::helps_lines(helps))
            }
        }
    }
}
