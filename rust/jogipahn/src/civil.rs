//! The civil calendar and dates: the Gregorian calendar, run backward without end, over days of which 1 is 1
//! January 2001.

use std::fmt;

use crate::error::unknown;
use crate::{raw, Entry, Error, Table};

/// How many numbers the civil table has.
const NUMBERS: usize = 66;

/// The cells that the rows of the civil table take. Those of entries behind it come on top.
pub const CELLS: usize = 332_046;

/// The entry of the civil table that is days: bottom.
pub const DAYS: Entry = Entry::new(0);

/// The entry of the civil table that is months, of which 1 is January 2001.
pub const MONTHS: Entry = Entry::new(9);

/// The entry of the civil table that is years, of which 1 is 2001.
pub const YEARS: Entry = Entry::new(10);

/// The civil calendar as a table over days. Other entries may be put behind it.
///
/// ```
/// use jogipahn::{civil, Date};
///
/// let mut table = civil::table();
/// let weeks = table.group(civil::DAYS, 7);
/// let rows = table.convert(civil::CELLS + 7)?;
/// let t = civil::instant(Date::new(2028, 2, 29))?;
/// let month = rows.reader(civil::MONTHS).label(t)?.unwrap();
/// assert_eq!((month.label, month.place), (326, 29));
/// assert_eq!(rows.reader(civil::YEARS).label(t)?.unwrap().place, 60);
/// assert_eq!(rows.reader(weeks).label(t)?.unwrap().place, 2);
/// # Ok::<(), Box<dyn std::error::Error>>(())
/// ```
#[doc(alias = "jogipahn_civil_table")]
pub fn table() -> Table {
    let mut numbers = [0; NUMBERS];
    match raw::civil_table(&mut numbers) {
        66 => Table::from_numbers(&numbers),
        answer => unknown(answer),
    }
}

/// The date of an instant.
///
/// ```
/// use jogipahn::{civil, Date};
///
/// assert_eq!(civil::date(1)?, Date::new(2001, 1, 1));
/// assert_eq!(civil::date(10_000)?.to_string(), "2028-05-18");
/// # Ok::<(), jogipahn::Error>(())
/// ```
///
/// # Errors
///
/// 14 for an instant outside ±1,000,000,000.
#[doc(alias = "jogipahn_date")]
pub fn date(t: i64) -> Result<Date, Error> {
    let mut date = Date::new(0, 0, 0);
    match raw::date(t, &mut date) {
        0 => Ok(date),
        answer => Err(Error::of_answer(answer)),
    }
}

/// The instant of a date.
///
/// ```
/// use jogipahn::{civil, Date, Error};
///
/// assert_eq!(civil::instant(Date::new(2000, 12, 31))?, 0);
/// assert_eq!(civil::instant(Date::new(2001, 2, 29)), Err(Error::NoSuchDate));
/// # Ok::<(), Error>(())
/// ```
///
/// # Errors
///
/// 20 for a date that does not exist; then 14 for one whose instant is outside ±1,000,000,000.
#[doc(alias = "jogipahn_instant")]
pub fn instant(date: Date) -> Result<i64, Error> {
    let mut t = 0;
    match raw::instant(date, &mut t) {
        0 => Ok(t),
        answer => Err(Error::of_answer(answer)),
    }
}

/// A date, which may be one that does not exist. Dates are ordered by time.
///
/// It prints as ISO 8601 has it, with a sign where the year is not 0 to 9999.
///
/// ```
/// use jogipahn::Date;
///
/// assert!(Date::new(2000, 12, 31) < Date::new(2001, 1, 1));
/// assert_eq!(Date::new(-1, 3, 1).to_string(), "-0001-03-01");
/// assert_eq!(Date::new(12_000, 3, 1).to_string(), "+12000-03-01");
/// ```
#[derive(Clone, Copy, Debug, PartialEq, Eq, PartialOrd, Ord, Hash)]
pub struct Date {
    /// The civil year; a year 0 stands before year 1.
    pub year: i64,
    /// The month, 1 to 12.
    pub month: i64,
    /// The day of the month, from 1.
    pub day: i64,
}

impl Date {
    /// A date of these numbers, which [`instant`] judges.
    ///
    /// ```
    /// assert_eq!(jogipahn::Date::new(2028, 2, 29).to_string(), "2028-02-29");
    /// ```
    pub const fn new(year: i64, month: i64, day: i64) -> Date {
        Date { year, month, day }
    }
}

impl fmt::Display for Date {
    fn fmt(&self, f: &mut fmt::Formatter<'_>) -> fmt::Result {
        match self.year {
            0..=9999 => write!(f, "{:04}", self.year)?,
            _ => write!(f, "{:+05}", self.year)?,
        }
        write!(f, "-{:02}-{:02}", self.month, self.day)
    }
}
