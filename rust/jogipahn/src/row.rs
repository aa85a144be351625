//! Rows to keep.

use std::fmt;

use crate::Reader;

/// A row of its own, to keep when its pool goes away. It is asked through its [`reader`](Row::reader).
///
/// Rows of conversions, of one table or of two, are equal exactly if they mean the same calendar. A row from anywhere
/// else need not have the least period, so that one calendar has many.
///
/// A row prints as its line of a [`sheet`](crate::sheet).
///
/// ```
/// use jogipahn::Table;
///
/// let mut table = Table::new();
/// let days = table.bottom();
/// let sixes = table.group(days, 6);
/// let sixes = table.convert(64)?.row(sixes);
/// assert_eq!(sixes.reader().label(7)?.map(|placed| placed.label), Some(2));
///
/// let mut other = Table::new();
/// let days = other.bottom();
/// let pairs = other.group(days, 2);
/// let threes = other.group(pairs, 3);
/// assert_eq!(other.convert(64)?.row(threes), sixes);
/// # Ok::<(), Box<dyn std::error::Error>>(())
/// ```
#[derive(Clone, Debug, PartialEq, Eq, Hash)]
pub struct Row {
    /// The cells, [`EMPTY`](crate::EMPTY) where there is no label.
    pub cells: Vec<i32>,
    /// The period.
    pub period: i64,
    /// The distance: by how much labels rise from turn to turn.
    pub distance: i64,
    /// The slots per period, for [`Reader::figures`].
    pub slots: i64,
}

impl Row {
    /// A copy of the row that a reader borrows, with its slots per period, as its [`Heading`](crate::Heading) has them.
    ///
    /// ```
    /// use jogipahn::{Reader, Row, EMPTY};
    ///
    /// let row = Row::new(Reader::new(&[EMPTY, 1, 1, 2], 4, 2), 2);
    /// assert_eq!(row.to_string(), "4 2 . 1 1 2");
    /// assert_eq!(row.reader().figures(row.slots)?.openness, 0.75);
    /// # Ok::<(), jogipahn::Error>(())
    /// ```
    pub fn new(reader: Reader<'_>, slots: impl Into<i64>) -> Row {
        Row {
            cells: reader.cells().to_vec(),
            period: reader.period(),
            distance: reader.distance(),
            slots: slots.into(),
        }
    }

    /// The reader of the row.
    ///
    /// ```
    /// use jogipahn::{Reader, Row};
    ///
    /// let row = Row { cells: vec![0, 1, 1], period: 3, distance: 1, slots: 1 };
    /// assert_eq!(row.reader(), Reader::new(&[0, 1, 1], 3, 1));
    /// ```
    pub fn reader(&self) -> Reader<'_> {
        Reader::new(&self.cells, self.period, self.distance)
    }
}

impl fmt::Display for Row {
    fn fmt(&self, f: &mut fmt::Formatter<'_>) -> fmt::Result {
        self.reader().fmt(f)
    }
}
