//! The desk: commands in words, answers from the proved library. What is here of a word's geometry is for pictures alone.

pub mod commands;
pub mod desk;
pub mod eyes;
pub mod figures;
pub mod help;
pub mod hex;
pub mod hints;
pub mod job_text;
pub mod options;
pub mod picture;
pub mod place;
pub mod refusals;
pub mod svg;
pub mod table;
pub mod table_file;
pub mod trouble;
pub mod words;
