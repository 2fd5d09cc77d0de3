//! A strip's values in hex, two digits a cell, as the transfer program has them.

use crate::trouble::{named, Trouble};

pub fn cells(word: &str) -> Result<Vec<u8>, Trouble> {
    if let Some(odd) = word.chars().find(|c| !c.is_ascii_hexdigit()) {
        let odd = named(&odd.to_string());
        return Err(Trouble::wrong(
            word,
            format!("{odd} is no hex digit, and cells are two of them each"),
        ));
    }
    if word.len() % 2 == 1 {
        let count = word.len();
        return Err(Trouble::wrong(
            word,
            format!("a cell is two hex digits, and these are {count}"),
        ));
    }
    let pairs = word.as_bytes().chunks_exact(2);
    Ok(pairs
        .map(|pair| nibble(pair[0]) << 4 | nibble(pair[1]))
        .collect())
}

/// The value of a hex digit.
pub fn nibble(digit: u8) -> u8 {
    match digit {
        b'0'..=b'9' => digit - b'0',
        _ => (digit | 0x20) - b'a' + 10,
    }
}

pub fn shown(cells: &[u8]) -> String {
    cells.iter().map(|cell| format!("{cell:02X}")).collect()
}
