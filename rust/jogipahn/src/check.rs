//! The check of finished rows.

use std::fmt;

use crate::error::unknown;
use crate::{raw, Entry, Heading, Refused, Table};

/// Why headings and rows that somebody else made are not those of a table.
#[derive(Clone, Copy, Debug, PartialEq, Eq, Hash)]
pub enum Fault {
    /// The table itself is refused.
    Refused(Refused),
    /// The heading or the row of this entry is wrong, the first such.
    Entry(Entry),
    /// All headings and rows are right, and something stands behind the last of them.
    Rest,
}

impl fmt::Display for Fault {
    fn fmt(&self, f: &mut fmt::Formatter<'_>) -> fmt::Result {
        match self {
            Fault::Refused(refused) => refused.fmt(f),
            Fault::Entry(entry) => write!(
                f,
                "entry {}: the heading or the row is not what the table gives; ask for it anew",
                entry.index()
            ),
            Fault::Rest => {
                f.write_str("headings or cells behind the last row are not empty; empty them")
            }
        }
    }
}

impl std::error::Error for Fault {
    fn source(&self) -> Option<&(dyn std::error::Error + 'static)> {
        match self {
            Fault::Refused(refused) => Some(&refused.error),
            _ => None,
        }
    }
}

/// Whether headings and a pool, whoever made them, are just what [`Table::convert_into`] would leave in lists of
/// these lengths, all behind the last heading and the last row included. Nothing is written, and no second pool is
/// needed.
///
/// ```
/// use jogipahn::{check, Entry, Fault, Table};
///
/// let mut table = Table::new();
/// let days = table.bottom();
/// table.group(days, 7);
/// let rows = table.convert(10)?;
/// assert_eq!(check(&table, rows.headings(), rows.pool()), Ok(()));
///
/// let mut pool = rows.pool().to_vec();
/// pool[3] = 2;
/// assert_eq!(check(&table, rows.headings(), &pool), Err(Fault::Entry(Entry::new(1))));
/// # Ok::<(), jogipahn::Refused>(())
/// ```
///
/// # Errors
///
/// Checks 1 to 3 come first. Then it stops at the first entry that a conversion refuses, with 4 to 12, or whose
/// heading or row is wrong; the refusal comes before a wrong row at the same entry.
#[doc(alias = "jogipahn_check")]
pub fn check(table: &Table, headings: &[Heading], pool: &[i32]) -> Result<(), Fault> {
    match raw::check(table.as_numbers(), raw::numbers(headings), pool) {
        0 => Ok(()),
        answer @ 1.. => Err(Fault::Refused(Refused::of_answer(answer))),
        answer => match usize::try_from(-1 - answer) {
            Ok(entry) if entry < table.len() => Err(Fault::Entry(Entry::new(entry))),
            Ok(entry) if entry == table.len() => Err(Fault::Rest),
            _ => unknown(answer),
        },
    }
}
