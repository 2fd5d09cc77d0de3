//! A second implementation of document 01 and of document 02's change requests 1, 2, 3, 5, 6, 7, 8, 9, 10, 11, 13 and 14, written from the papers alone and in
//! plain Rust.
//! A refusal is its number, 0 is served; a refused call leaves every buffer and the book as they were.

pub mod blocks;
pub mod book;
pub mod choose;
pub mod codec;
pub mod cover;
mod digits;
mod fbi;
pub mod figures;
pub mod index;
pub mod job;
pub mod lanes;
pub mod larsson;
pub mod moving;
pub mod prescription;
pub mod raw;
mod reserved;
pub mod transfer;

pub use book::Book;
pub use figures::Figures;
