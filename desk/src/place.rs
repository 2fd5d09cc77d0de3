//! Where a strip's bursts go: starts as they are typed, or worn positions that the library covers.

use crate::figures::Figures;
use crate::trouble::Trouble;
use crate::words::{whole, Words};

pub enum Place {
    At(Vec<u16>),
    On(Vec<String>),
}

impl Place {
    /// `at START..` or `on POSITION..`, to the end of the command.
    pub fn take(words: &mut Words) -> Result<Place, Trouble> {
        let wanted = "here stands at, with starts, or on, with worn positions";
        match words.next("at or on")? {
            "at" => Ok(Place::At(starts(words, &[])?)),
            "on" => Ok(Place::On(words.until(&[]))),
            other => Err(Trouble::wrong(other, wanted)),
        }
    }

    /// The starts: those that were typed, or of the least placement that covers the worn positions.
    pub fn starts(self, figures: &Figures) -> Result<Vec<u16>, Trouble> {
        match self {
            Place::At(starts) => Ok(starts),
            Place::On(worn) => cover(figures, &worn),
        }
    }
}

/// Starts until one of these words, or to the end.
pub fn starts(words: &mut Words, ends: &[&str]) -> Result<Vec<u16>, Trouble> {
    let last = u32::from(u16::MAX);
    let start = |word: String| {
        whole(&word, last)
            .map(|number| number as u16)
            .ok_or_else(|| Trouble::wrong(&word, format!("a start is a whole number up to {last}")))
    };
    words.until(ends).into_iter().map(start).collect()
}

/// Covers worn positions, each a number or two with a minus between them.
pub fn cover(figures: &Figures, worn: &[String]) -> Result<Vec<u16>, Trouble> {
    let n = figures.numbers.n;
    let mut map = vec![0; n];
    for word in worn {
        let (first, last) = word.split_once('-').unwrap_or((word, word));
        let limit = n as u32 - 1;
        let (Some(first), Some(last)) = (whole(first, limit), whole(last, limit)) else {
            return Err(Trouble::wrong(
                word,
                format!("a position is 0 to {limit}, and 8-12 is those from 8 to 12"),
            ));
        };
        if first > last {
            return Err(Trouble::wrong(
                word,
                "the first position is behind the last",
            ));
        }
        map[first as usize..=last as usize].fill(1);
    }
    Ok(figures.cover(&map)?)
}

/// Positions and starts as answers list them, one space in front of each.
pub fn listed<T: ToString>(positions: &[T]) -> String {
    positions
        .iter()
        .map(|position| format!(" {}", position.to_string()))
        .collect()
}
