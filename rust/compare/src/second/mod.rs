//! The second implementation of documents 01 and 02.
//!
//! It is written from the paper alone and shares nothing with the proved core:
//! a kind that looks at slots writes its operands out over the span, lists
//! where their slots begin, and works on these lists. Scratch memory is taken
//! freely; time is linear in the span and the working period, apart from the
//! few prime factors tried for the least form.

pub mod check;
mod conversion;
pub mod dates;
pub mod journal;
mod kinds;
mod least;
mod numbers;
pub mod open;
pub mod questions;
pub mod sheet;
mod slots;
pub mod walk;

pub use conversion::convert;
pub(crate) use conversion::{admitted, convert_entry, Stored};

/// The cell that means "no label".
pub const EMPTY: i32 = i32::MIN;

/// Labels, instants and the numbers of shift and renumber stay within ± this.
pub const LABEL_LIMIT: i32 = 1_000_000_000;

/// The longest pool and the longest row.
pub const CELL_LIMIT: usize = 4_194_304;

/// The most entries a table has.
pub const ENTRY_LIMIT: usize = 64;

/// How many numbers make up an entry of a table.
pub const ENTRY_NUMBERS: usize = 6;

/// How many numbers make up a heading: start, period, distance, and the slots
/// per period.
pub const HEADING_NUMBERS: usize = 4;
