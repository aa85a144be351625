//! The proved core, called through the crate [`jogipahn`].
//!
//! The functions have the signatures of [`second`](crate::second)'s. Each asks
//! twice: in the crate's types, and by the C function below them, to which any
//! numbers and lists can be handed, and dirty memory where it has to write. What
//! C answers and leaves must be what the crate's answer stands for.

use jogipahn::{Error, Refused};

pub use check::check;
pub use conversion::convert;
pub use dates::{civil_table, civil_table_into, date, instant};
pub use journal::{journal_last, journal_record_into};
pub use open::{between, count_open, last_open, next_open, nth_open, open_map, open_map_into};
pub use questions::{
    down, figures, least_period, may_be_late, may_be_late_by, may_be_late_each, reader, up_granule,
    up_granules, up_instant, up_instants,
};
pub use sheet::{sheet, sheet_into};
pub use walk::{walked, Walk};

mod check;
mod conversion;
mod dates;
mod journal;
mod open;
mod questions;
mod sheet;
mod walk;

/// What the core shouldn't leave standing.
const DIRT: i64 = 0x5EED_5EED_5EED;

fn number(error: Error) -> u32 {
    error.number().into()
}

/// Number and entry.
fn numbers(refused: Refused) -> (u32, u32) {
    (number(refused.error), refused.entry as u32)
}

/// A refusal as C answers it.
fn code(error: Error) -> i64 {
    -i64::from(error.number())
}

/// A number that is always there as C answers it: it stands beside 0, and 0
/// beside a refusal.
fn code_beside(answer: Result<i64, Error>) -> (i64, i64) {
    match answer {
        Ok(number) => (0, number),
        Err(error) => (code(error), 0),
    }
}

/// A number or none as C answers it: it stands beside 1, else there is 0.
fn code_if_any(answer: Result<Option<i64>, Error>) -> (i64, i64) {
    match answer {
        Ok(Some(number)) => (1, number),
        Ok(None) => (0, 0),
        Err(error) => (code(error), 0),
    }
}

/// A count as C answers it.
fn code_of_count(answer: Result<usize, Error>) -> i64 {
    answer.map_or_else(code, |count| count as i64)
}
