//! Limits, and the mark of an empty cell.

/// The cell of an instant that has no label.
pub const EMPTY: i32 = i32::MIN;

/// The most entries of a table.
pub const ENTRIES_MAX: usize = 64;

/// The most cells of a pool, and the longest period.
pub const CELLS_MAX: usize = 4_194_304;

/// Instants and labels that are handed in lie from minus this to this. Answers may pass it.
pub const INSTANT_MAX: i64 = 1_000_000_000;

/// The greatest lateness that may be asked for.
pub const LATE_MAX: i64 = 1_048_576;

/// The most open instants that one may go on or back.
pub const STEPS_MAX: i64 = 1_000_000;

/// The most bytes of a table that is typed in.
pub const TEXT_MAX: usize = 4_096;
