//! Headings: where rows stand in a pool.

use std::ops::{Deref, DerefMut};

use crate::Reader;

/// Where an entry's row stands in the pool, and what it is.
///
/// ```
/// use jogipahn::{Heading, Table};
///
/// let mut table = Table::new();
/// let days = table.bottom();
/// let weeks = table.group(days, 7);
/// let rows = table.convert(64)?;
/// assert_eq!(rows.heading(weeks), Heading { start: 1, period: 7, distance: 1, slots: 1 });
/// # Ok::<(), jogipahn::Refused>(())
/// ```
#[derive(Clone, Copy, Debug, Default, PartialEq, Eq, Hash)]
#[repr(C)]
pub struct Heading {
    /// The cell of the pool at which the row starts.
    pub start: u32,
    /// How many instants the row has: after so many every label is greater by the distance.
    pub period: u32,
    /// By how much labels rise from turn to turn.
    pub distance: u32,
    /// The slots per period.
    pub slots: u32,
}

impl Heading {
    /// The reader of the row that a heading speaks of, in the pool that it was written with. None where the pool ends
    /// before the row does.
    ///
    /// ```
    /// use jogipahn::{Headings, Table};
    ///
    /// let mut table = Table::new();
    /// let days = table.bottom();
    /// table.group(days, 7);
    /// let (mut headings, mut pool) = (Headings::new(2), [0; 8]);
    /// table.convert_into(&mut headings, &mut pool)?;
    /// assert_eq!(headings[1].reader(&pool).unwrap().to_string(), "7 1 0 1 1 1 1 1 1");
    /// assert!(headings[1].reader(&pool[..7]).is_none());
    /// # Ok::<(), jogipahn::Refused>(())
    /// ```
    pub fn reader<'a>(&self, pool: &'a [i32]) -> Option<Reader<'a>> {
        let start = usize::try_from(self.start).ok()?;
        let period = usize::try_from(self.period).ok()?;
        let cells = pool.get(start..)?.get(..period)?;
        Some(Reader::new(cells, self.period.into(), self.distance.into()))
    }
}

/// A list of headings, one for each entry. It is used as a slice.
///
/// ```
/// use jogipahn::{Headings, Table};
///
/// let mut table = Table::new();
/// let days = table.bottom();
/// table.group(days, 7);
/// let (mut headings, mut pool) = (Headings::new(table.len()), vec![0; 64]);
/// table.convert_into(&mut headings, &mut pool)?;
/// assert_eq!(headings[1].period, 7);
/// assert_eq!(&headings, table.convert(64)?.headings());
/// # Ok::<(), jogipahn::Refused>(())
/// ```
#[derive(Clone, Debug, PartialEq, Eq, Hash)]
pub struct Headings(Vec<Heading>);

impl Headings {
    /// So many headings, all 0.
    ///
    /// ```
    /// use jogipahn::{Heading, Headings};
    ///
    /// assert_eq!(Headings::new(2)[..], [Heading::default(); 2]);
    /// ```
    ///
    /// # Panics
    ///
    /// Where there is no memory for so many, as with a [`Vec`].
    pub fn new(n: usize) -> Headings {
        Headings(vec![Heading::default(); n])
    }
}

impl From<Vec<Heading>> for Headings {
    fn from(headings: Vec<Heading>) -> Headings {
        Headings(headings)
    }
}

impl Deref for Headings {
    type Target = [Heading];

    fn deref(&self) -> &[Heading] {
        &self.0
    }
}

impl DerefMut for Headings {
    fn deref_mut(&mut self) -> &mut [Heading] {
        &mut self.0
    }
}
