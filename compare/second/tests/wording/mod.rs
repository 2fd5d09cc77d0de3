//! Words as the papers word them, cell by cell.

/// The cells with the message in those that are left.
pub fn filled(cells: &[Option<u8>], message: &[u8]) -> Vec<u8> {
    let mut symbols = message.iter();
    let word = cells
        .iter()
        .map(|cell| cell.unwrap_or_else(|| *symbols.next().expect("a symbol")))
        .collect();
    assert!(symbols.next().is_none());
    word
}
