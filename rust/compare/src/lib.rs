//! A second, independent implementation of the calendar core, and the means to
//! compare the proved one with it.
//!
//! - [`second`] is the second implementation, written from documents 01 and 02 alone.
//! - [`core`] is the proved one in the same signatures, called through the crate
//!   [`jogipahn`].
//! - [`random`], [`tables`], [`claims`], [`texts`], [`rows`] and [`maps`] make random numbers,
//!   tables, finished lists, texts, and rows and open maps with questions to them, all from a
//!   seed.
//! - [`counts`] tells what came out of a comparison, [`timing`] measures both sides,
//!   on tables of [`timed`].
//! - [`vectors`] chooses the stored tables of the program `vectors` and says what
//!   it has to print; `cargo run --release --bin vectors` writes both.
//!
//! `cargo test --release` compares everything, over the archive that the crate
//! `jogipahn` links; `--test NAME -- --nocapture` shows what one comparison came
//! to, and `cargo run --release --bin bench_NAME` measures: `questions`,
//! `conversion`, `open` and `check`. `--test journal_file` runs a program over
//! real files, cuts them and kills it.

pub mod claims;
pub mod core;
pub mod counts;
pub mod maps;
pub mod random;
pub mod rows;
pub mod second;
pub mod tables;
pub mod texts;
pub mod timed;
pub mod timing;
pub mod vectors;
