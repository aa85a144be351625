//! The conversion of a table, and the rows that it gives.

use crate::{raw, Entry, Heading, Headings, Reader, Refused, Row, Table};
use crate::{CELLS_MAX, EMPTY, ENTRIES_MAX};

impl Table {
    /// The least row of each entry, in a new pool of so many cells, at most [`CELLS_MAX`]. An entry is refused where
    /// its working row does not fit behind the rows of those before it.
    ///
    /// ```
    /// use jogipahn::{Error, Refused, Table};
    ///
    /// let mut table = Table::new();
    /// let days = table.bottom();
    /// let weeks = table.group(days, 7);
    /// assert_eq!(table.convert(8)?.row(weeks).distance, 1);
    /// assert_eq!(table.convert(7), Err(Refused { error: Error::TooLong, entry: 1 }));
    /// # Ok::<(), Refused>(())
    /// ```
    #[doc(alias = "jogipahn_convert")]
    pub fn convert(&self, cells: usize) -> Result<Rows, Refused> {
        // One cell above the limit is as much refused as any number above it.
        let mut pool = vec![EMPTY; cells.min(CELLS_MAX + 1)];
        let mut headings = Headings::new(self.len().min(ENTRIES_MAX));
        self.convert_into(&mut headings, &mut pool)?;
        Ok(Rows::new(headings, pool))
    }

    /// As [`convert`](Table::convert), in memory that is lent: headings, one for each entry at least, and a pool.
    ///
    /// Answered, the rows stand in the pool one behind the other and [`EMPTY`] behind the last; headings behind the
    /// last entry's are all 0. After a refusal all of the pool is [`EMPTY`] and all headings are 0.
    ///
    /// ```
    /// use jogipahn::{Heading, Headings, Table, EMPTY};
    ///
    /// let mut table = Table::new();
    /// let days = table.bottom();
    /// table.group(days, 7);
    /// let (mut headings, mut pool) = (Headings::new(2), [0; 10]);
    /// table.convert_into(&mut headings, &mut pool)?;
    /// assert_eq!(headings[1], Heading { start: 1, period: 7, distance: 1, slots: 1 });
    /// assert_eq!(pool, [0, 0, 1, 1, 1, 1, 1, 1, EMPTY, EMPTY]);
    /// # Ok::<(), jogipahn::Refused>(())
    /// ```
    #[doc(alias = "jogipahn_convert")]
    pub fn convert_into(&self, headings: &mut [Heading], pool: &mut [i32]) -> Result<(), Refused> {
        match raw::convert(self.as_numbers(), raw::numbers_mut(headings), pool) {
            0 => Ok(()),
            answer => Err(Refused::of_answer(answer)),
        }
    }
}

/// The rows of a table that was converted: a heading for each entry, and the pool.
///
/// ```
/// use jogipahn::Table;
///
/// let mut table = Table::new();
/// let days = table.bottom();
/// let weeks = table.group(days, 7);
/// let rows = table.convert(64)?;
/// let placed = rows.reader(weeks).label(10).unwrap().unwrap();
/// assert_eq!((placed.label, placed.place), (2, 3));
/// # Ok::<(), jogipahn::Refused>(())
/// ```
#[derive(Clone, Debug, PartialEq, Eq, Hash)]
pub struct Rows {
    headings: Headings,
    pool: Vec<i32>,
}

impl Rows {
    pub(crate) fn new(headings: Headings, pool: Vec<i32>) -> Rows {
        Rows { headings, pool }
    }

    /// The reader of an entry's row.
    ///
    /// ```
    /// let mut table = jogipahn::Table::new();
    /// let days = table.bottom();
    /// assert_eq!(table.convert(1)?.reader(days).cells(), [0]);
    /// # Ok::<(), jogipahn::Refused>(())
    /// ```
    ///
    /// # Panics
    ///
    /// Where the table has no such entry, as with an index of a slice. [`get`](Rows::get) answers none there.
    pub fn reader(&self, entry: Entry) -> Reader<'_> {
        match self.get(entry) {
            Some(reader) => reader,
            None => panic!("entry {} of {}", entry.index(), self.headings.len()),
        }
    }

    /// A copy of an entry's row, to keep.
    ///
    /// ```
    /// use jogipahn::{Row, Table};
    ///
    /// let mut table = Table::new();
    /// let days = table.bottom();
    /// let row = table.convert(1)?.row(days);
    /// assert_eq!(row, Row { cells: vec![0], period: 1, distance: 1, slots: 1 });
    /// # Ok::<(), jogipahn::Refused>(())
    /// ```
    ///
    /// # Panics
    ///
    /// As [`reader`](Rows::reader).
    pub fn row(&self, entry: Entry) -> Row {
        Row::new(self.reader(entry), self.heading(entry).slots)
    }

    /// The reader of an entry's row, or none where the table has no such entry.
    ///
    /// ```
    /// use jogipahn::{Entry, Table};
    ///
    /// let mut table = Table::new();
    /// let days = table.bottom();
    /// let rows = table.convert(1)?;
    /// assert!(rows.get(days).is_some());
    /// assert!(rows.get(Entry::new(1)).is_none());
    /// # Ok::<(), jogipahn::Refused>(())
    /// ```
    pub fn get(&self, entry: Entry) -> Option<Reader<'_>> {
        self.headings.get(entry.index())?.reader(&self.pool)
    }

    /// The heading of an entry.
    ///
    /// ```
    /// let mut table = jogipahn::Table::new();
    /// let days = table.bottom();
    /// assert_eq!(table.convert(1)?.heading(days).slots, 1);
    /// # Ok::<(), jogipahn::Refused>(())
    /// ```
    ///
    /// # Panics
    ///
    /// As [`reader`](Rows::reader).
    pub fn heading(&self, entry: Entry) -> Heading {
        self.headings[entry.index()]
    }

    /// The headings, one for each entry.
    ///
    /// ```
    /// let mut table = jogipahn::Table::new();
    /// table.bottom();
    /// assert_eq!(table.convert(1)?.headings().len(), 1);
    /// # Ok::<(), jogipahn::Refused>(())
    /// ```
    pub fn headings(&self) -> &Headings {
        &self.headings
    }

    /// The pool: the rows one behind the other, and [`EMPTY`] behind the last.
    ///
    /// ```
    /// use jogipahn::{Table, EMPTY};
    ///
    /// let mut table = Table::new();
    /// table.bottom();
    /// assert_eq!(table.convert(3)?.pool(), [0, EMPTY, EMPTY]);
    /// # Ok::<(), jogipahn::Refused>(())
    /// ```
    pub fn pool(&self) -> &[i32] {
        &self.pool
    }

    /// The readers of all entries' rows, in their order.
    ///
    /// ```
    /// let mut table = jogipahn::Table::new();
    /// let days = table.bottom();
    /// table.group(days, 2);
    /// let rows = table.convert(3)?;
    /// let lines: Vec<String> = rows.iter().map(|reader| reader.to_string()).collect();
    /// assert_eq!(lines, ["1 1 0", "2 1 0 1"]);
    /// # Ok::<(), jogipahn::Refused>(())
    /// ```
    pub fn iter(&self) -> impl Iterator<Item = Reader<'_>> {
        self.headings
            .iter()
            .filter_map(|heading| heading.reader(&self.pool))
    }
}
