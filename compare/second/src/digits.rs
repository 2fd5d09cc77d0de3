//! Values spelled in symbols, most significant first.

/// Writes a value's last digits, from the last to the first, as division yields them. What is left is for the digits before them.
pub fn put(q: u64, value: u64, symbols: &mut [u8]) -> u64 {
    let mut left = value;
    for symbol in symbols.iter_mut().rev() {
        *symbol = (left % q) as u8;
        left /= q;
    }
    left
}

/// A value with one digit more, or none where it isn't below the bound: further digits never lessen it, and the bound fits in 64 bits.
pub fn append(bound: u64, value: u64, base: u64, digit: u8) -> Option<u64> {
    let value = value.checked_mul(base)?.checked_add(digit as u64)?;
    (value < bound).then_some(value)
}

/// A value with these digits more, or none where it isn't below the bound.
pub fn append_all(bound: u64, value: u64, q: u64, symbols: &[u8]) -> Option<u64> {
    let next = |value, &symbol: &u8| append(bound, value, q, symbol);
    symbols.iter().try_fold(value, next)
}
