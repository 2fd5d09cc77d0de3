//! Buffers as the calls are lent them.

use crate::judge::hex;

/// Items before and behind each lent buffer, which no call may touch; odd, so that no buffer of bytes is aligned.
const GUARD: usize = 13;

/// What a buffer holds.
pub trait Item: Copy {
    /// What no call would leave at place `i` by chance.
    fn filler(i: usize) -> Self;
    /// Whether the items are the same to the bit.
    fn same(these: &[Self], those: &[Self]) -> bool;
    /// Items as printed in a difference.
    fn shown(items: &[Self]) -> String;
}

impl Item for u8 {
    fn filler(i: usize) -> u8 {
        (i * 37 + 0xA5) as u8
    }

    fn same(these: &[u8], those: &[u8]) -> bool {
        these == those
    }

    fn shown(items: &[u8]) -> String {
        hex(items)
    }
}

impl Item for u64 {
    fn filler(i: usize) -> u64 {
        i as u64 * 0x9E37_79B9_7F4A_7C15 + 0xA5
    }

    fn same(these: &[u64], those: &[u64]) -> bool {
        these == those
    }

    fn shown(items: &[u64]) -> String {
        format!("{items:?}")
    }
}

impl Item for f64 {
    fn filler(i: usize) -> f64 {
        i as f64 * 37.0 + 0.3
    }

    /// Minus zero is another than zero, and a NaN the same as itself.
    fn same(these: &[f64], those: &[f64]) -> bool {
        let bits = |item: &f64| item.to_bits();
        these.iter().map(bits).eq(those.iter().map(bits))
    }

    fn shown(items: &[f64]) -> String {
        format!("{items:?}")
    }
}

/// A lent buffer between two guards, filled.
#[derive(Clone)]
pub struct Lent<T = u8>(Vec<T>);

impl<T: Item> PartialEq for Lent<T> {
    fn eq(&self, other: &Lent<T>) -> bool {
        T::same(&self.0, &other.0)
    }
}

impl<T: Item> Lent<T> {
    pub fn new(len: usize) -> Lent<T> {
        Lent((0..len + 2 * GUARD).map(T::filler).collect())
    }

    pub fn holding(items: &[T]) -> Lent<T> {
        let mut lent = Lent::new(items.len());
        lent.items().copy_from_slice(items);
        lent
    }

    pub fn items(&mut self) -> &mut [T] {
        let end = self.0.len() - GUARD;
        &mut self.0[GUARD..end]
    }

    /// Whether the guards are those of a buffer of the same length.
    pub fn guarded(&self, other: &Lent<T>) -> bool {
        let end = self.0.len() - GUARD;
        T::same(&self.0[..GUARD], &other.0[..GUARD]) && T::same(&self.0[end..], &other.0[end..])
    }

    /// The buffer and its guards, as printed in a difference.
    pub fn shown(&self) -> String {
        T::shown(&self.0)
    }

    pub fn into_items(mut self) -> Vec<T> {
        self.0.truncate(self.0.len() - GUARD);
        self.0.split_off(GUARD)
    }
}
