//! A conversion in steps: one entry a call, for whoever can't stop for a whole table.
//!
//! [`Walk`] has headings and pool of its own. [`State`] is for lists that the caller lends, and may look at and
//! change between calls.

use crate::error::unknown;
use crate::{raw, Entry, Heading, Headings, Reader, Refused, Rows, Table};
use crate::{CELLS_MAX, EMPTY, ENTRIES_MAX};

/// Whether entries are left.
#[derive(Clone, Copy, Debug, PartialEq, Eq, Hash)]
pub enum Progress {
    /// There are more entries.
    More,
    /// The last entry is taken.
    Done,
}

impl Progress {
    fn of_answer(answer: i64) -> Result<Progress, Refused> {
        match answer {
            0 => Ok(Progress::More),
            1 => Ok(Progress::Done),
            _ => Err(Refused::of_answer(answer)),
        }
    }
}

/// A conversion in steps, in headings and a pool of its own.
///
/// ```
/// use jogipahn::walk::{Progress, Walk};
/// use jogipahn::Table;
///
/// let mut table = Table::new();
/// let days = table.bottom();
/// let weeks = table.group(days, 7);
/// let mut walk = Walk::start(&table, 64)?;
/// assert_eq!(walk.step()?, Progress::More);
/// assert!(walk.get(days).is_some() && walk.get(weeks).is_none());
/// assert_eq!(walk.step()?, Progress::Done);
/// assert_eq!(walk.finish()?, table.convert(64)?);
/// # Ok::<(), jogipahn::Refused>(())
/// ```
#[derive(Clone, Debug)]
pub struct Walk<'a> {
    table: &'a Table,
    headings: Headings,
    pool: Vec<i32>,
    state: State,
}

impl<'a> Walk<'a> {
    /// Begins a walk over a table, with a pool of so many cells. No entry is looked at yet.
    ///
    /// ```
    /// use jogipahn::walk::Walk;
    /// use jogipahn::{Error, Table};
    ///
    /// let refused = Walk::start(&Table::new(), 64).unwrap_err();
    /// assert_eq!(refused.error, Error::TableLength);
    /// ```
    ///
    /// # Errors
    ///
    /// 1 and 3.
    #[doc(alias = "jogipahn_walk_start")]
    pub fn start(table: &'a Table, cells: usize) -> Result<Walk<'a>, Refused> {
        let mut headings = Headings::new(table.len().min(ENTRIES_MAX));
        let mut pool = vec![EMPTY; cells.min(CELLS_MAX + 1)];
        let state = State::start(table, &mut headings, &mut pool)?;
        Ok(Walk {
            table,
            headings,
            pool,
            state,
        })
    }

    /// Takes the next entry. The n-th call is the first to be done with n entries; later ones change nothing.
    ///
    /// ```
    /// use jogipahn::walk::{Progress, Walk};
    /// use jogipahn::Table;
    ///
    /// let mut table = Table::new();
    /// table.bottom();
    /// let mut walk = Walk::start(&table, 1)?;
    /// assert_eq!(walk.step()?, Progress::Done);
    /// assert_eq!(walk.step()?, Progress::Done);
    /// # Ok::<(), jogipahn::Refused>(())
    /// ```
    ///
    /// # Errors
    ///
    /// 4 to 12, with the entry. That ends the walk and empties its rows; later calls repeat the refusal.
    #[doc(alias = "jogipahn_walk_step")]
    pub fn step(&mut self) -> Result<Progress, Refused> {
        self.state
            .step(self.table, &mut self.headings, &mut self.pool)
    }

    /// The reader of an entry that is taken; none of one that is not, or after a refusal.
    ///
    /// ```
    /// use jogipahn::walk::Walk;
    /// use jogipahn::Table;
    ///
    /// let mut table = Table::new();
    /// let days = table.bottom();
    /// let mut walk = Walk::start(&table, 1)?;
    /// assert!(walk.get(days).is_none());
    /// walk.step()?;
    /// assert_eq!(walk.get(days).unwrap().cells(), [0]);
    /// # Ok::<(), jogipahn::Refused>(())
    /// ```
    pub fn get(&self, entry: Entry) -> Option<Reader<'_>> {
        let heading = self.headings.get(entry.index())?;
        if heading.period == 0 {
            return None;
        }
        heading.reader(&self.pool)
    }

    /// Takes all entries that are left, and gives the rows, which are those of [`Table::convert`].
    ///
    /// ```
    /// use jogipahn::walk::Walk;
    /// use jogipahn::Table;
    ///
    /// let mut table = Table::new();
    /// let days = table.bottom();
    /// table.group(days, 7);
    /// assert_eq!(Walk::start(&table, 64)?.finish()?, table.convert(64)?);
    /// # Ok::<(), jogipahn::Refused>(())
    /// ```
    ///
    /// # Errors
    ///
    /// As [`step`](Walk::step).
    pub fn finish(mut self) -> Result<Rows, Refused> {
        for _ in 0..=ENTRIES_MAX {
            if self.step()? == Progress::Done {
                return Ok(Rows::new(self.headings, self.pool));
            }
        }
        // A walk is done after as many calls as there are entries.
        unknown(0)
    }
}

/// How far a walk over lent lists is.
///
/// Between calls the caller may look at the lists and change them. A changed row counts as the calendar that it
/// means, and a changed table entry as it stands at its own step. Each call that takes an entry first tests that
/// the three lists have the lengths that they had at the start, and that the rows and headings stand there one
/// behind the other, sound, each with its least period, and nothing behind them; if not, it is refused with 13.
///
/// ```
/// use jogipahn::walk::{Progress, State};
/// use jogipahn::{Headings, Table};
///
/// let mut table = Table::new();
/// let days = table.bottom();
/// table.group(days, 7);
/// let (mut headings, mut pool) = (Headings::new(2), [0; 10]);
/// let mut state = State::start(&table, &mut headings, &mut pool)?;
/// while state.step(&table, &mut headings, &mut pool)? == Progress::More {}
/// assert_eq!(headings[1].reader(&pool).unwrap().to_string(), "7 1 0 1 1 1 1 1 1");
/// # Ok::<(), jogipahn::Refused>(())
/// ```
#[derive(Clone, Debug, PartialEq, Eq)]
pub struct State {
    numbers: [i64; 8],
}

impl State {
    /// Begins a walk. The lists are emptied, also after a refusal; no entry is looked at yet.
    ///
    /// ```
    /// use jogipahn::walk::State;
    /// use jogipahn::{Error, Table};
    ///
    /// let mut table = Table::new();
    /// table.bottom();
    /// let refused = State::start(&table, &mut [], &mut [0; 10]).unwrap_err();
    /// assert_eq!(refused.error, Error::TooFewHeadings);
    /// ```
    ///
    /// # Errors
    ///
    /// 1 to 3.
    #[doc(alias = "jogipahn_walk_start")]
    pub fn start(
        table: &Table,
        headings: &mut [Heading],
        pool: &mut [i32],
    ) -> Result<State, Refused> {
        let mut numbers = [0; 8];
        match raw::walk_start(
            table.as_numbers(),
            raw::numbers_mut(headings),
            pool,
            &mut numbers,
        ) {
            0 => Ok(State { numbers }),
            answer => Err(Refused::of_answer(answer)),
        }
    }

    /// Takes the next entry, as [`Walk::step`] does.
    ///
    /// ```
    /// use jogipahn::walk::State;
    /// use jogipahn::{Error, Headings, Table};
    ///
    /// let mut table = Table::new();
    /// let days = table.bottom();
    /// table.group(days, 7);
    /// let (mut headings, mut pool) = (Headings::new(2), [0; 10]);
    /// let mut state = State::start(&table, &mut headings, &mut pool)?;
    /// state.step(&table, &mut headings, &mut pool)?;
    /// pool[5] = 3;
    /// let refused = state.step(&table, &mut headings, &mut pool).unwrap_err();
    /// assert_eq!((refused.error, refused.entry), (Error::RowNotSound, 1));
    /// # Ok::<(), jogipahn::Refused>(())
    /// ```
    ///
    /// # Errors
    ///
    /// 4 to 13, with the entry. That ends the walk and empties both lists; later calls repeat the refusal and change
    /// nothing.
    #[doc(alias = "jogipahn_walk_step")]
    pub fn step(
        &mut self,
        table: &Table,
        headings: &mut [Heading],
        pool: &mut [i32],
    ) -> Result<Progress, Refused> {
        let answer = raw::walk_step(
            table.as_numbers(),
            raw::numbers_mut(headings),
            pool,
            &mut self.numbers,
        );
        Progress::of_answer(answer)
    }
}
