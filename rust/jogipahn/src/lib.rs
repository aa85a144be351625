#![doc = include_str!("../README.md")]
#![deny(missing_docs, unsafe_code)]
#![warn(clippy::all)]

mod answers;
mod batches;
#[cfg(feature = "check")]
mod check;
pub mod civil;
mod error;
mod headings;
#[cfg(feature = "journal")]
pub mod journal;
mod limits;
mod open_map;
#[allow(unsafe_code)]
#[doc(hidden)]
pub mod raw;
mod reader;
mod row;
mod rows;
mod sheet;
mod table;
mod text;
#[cfg(feature = "walk")]
pub mod walk;

pub use answers::{Allowance, Figures, LeastPeriod, Placed};
#[cfg(feature = "check")]
pub use check::{check, Fault};
pub use civil::Date;
pub use error::{Error, Refused};
pub use headings::{Heading, Headings};
pub use limits::{CELLS_MAX, EMPTY, ENTRIES_MAX, INSTANT_MAX, LATE_MAX, STEPS_MAX, TEXT_MAX};
pub use open_map::OpenMap;
pub use reader::Reader;
pub use row::Row;
pub use rows::Rows;
pub use sheet::sheet;
pub use table::{Entry, Table};
