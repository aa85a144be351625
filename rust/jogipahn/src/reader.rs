//! Questions to rows.

use std::fmt;

use crate::{raw, Allowance, Error, Figures, LeastPeriod, OpenMap, Placed, EMPTY};

/// A reader: it borrows the cells of one row together with its period and distance, and all questions are put
/// through it.
///
/// A row is the labels of the instants 0 to period - 1, [`EMPTY`] for an instant that has none. The instant t has the
/// label in cell (t mod period) plus distance · floor(t / period). All instants with one label are a slot. The row
/// may come from a conversion or from anywhere else, and need not have the least period. One that is not sound has a
/// reader all the same: every question refuses it with [`Error::RowNotSound`].
///
/// A reader prints as the row's line of a [`sheet`](crate::sheet): period, distance and cells.
///
/// ```
/// use jogipahn::{Reader, EMPTY};
///
/// // The working week of five days, of which Wednesday is closed.
/// let week = Reader::new(&[EMPTY, 1, 1, EMPTY, 1, 1, EMPTY], 7, 1);
/// assert_eq!(week.label(5)?.map(|placed| placed.place), Some(4));
/// assert_eq!(week.label(3)?, None);
/// assert_eq!(week.to_string(), "7 1 . 1 1 . 1 1 .");
/// # Ok::<(), jogipahn::Error>(())
/// ```
#[derive(Clone, Copy, Debug, PartialEq, Eq, Hash)]
pub struct Reader<'a> {
    cells: &'a [i32],
    period: i64,
    distance: i64,
}

impl<'a> Reader<'a> {
    /// The reader of a row with these cells. Their number is to be the period.
    ///
    /// ```
    /// use jogipahn::{Error, Reader};
    ///
    /// assert!(Reader::new(&[0, 1, 1], 3, 1).label(0).is_ok());
    /// assert_eq!(Reader::new(&[0, 1, 1], 4, 1).label(0), Err(Error::RowNotSound));
    /// ```
    pub const fn new(cells: &'a [i32], period: i64, distance: i64) -> Reader<'a> {
        Reader {
            cells,
            period,
            distance,
        }
    }

    /// The cells, [`EMPTY`] where there is no label.
    ///
    /// ```
    /// assert_eq!(jogipahn::Reader::new(&[0, 1], 2, 2).cells(), [0, 1]);
    /// ```
    pub const fn cells(&self) -> &'a [i32] {
        self.cells
    }

    /// The period.
    ///
    /// ```
    /// assert_eq!(jogipahn::Reader::new(&[0, 1, 1], 3, 1).period(), 3);
    /// ```
    pub const fn period(&self) -> i64 {
        self.period
    }

    /// The distance: by how much labels rise from turn to turn.
    ///
    /// ```
    /// assert_eq!(jogipahn::Reader::new(&[0, 1, 1], 3, 1).distance(), 1);
    /// ```
    pub const fn distance(&self) -> i64 {
        self.distance
    }

    /// The label of the instant `t` and its place in that slot, or none.
    ///
    /// ```
    /// use jogipahn::{Placed, Reader, EMPTY};
    ///
    /// let week = Reader::new(&[EMPTY, 1, 1, 1, 1, 1, EMPTY], 7, 1);
    /// assert_eq!(week.label(5)?, Some(Placed { label: 1, place: 5 }));
    /// assert_eq!(week.label(-6)?, Some(Placed { label: 0, place: 1 }));
    /// assert_eq!(week.label(7)?, None);
    /// # Ok::<(), jogipahn::Error>(())
    /// ```
    ///
    /// # Errors
    ///
    /// 13; 14 for an instant outside ±1,000,000,000.
    #[doc(alias = "jogipahn_up_instant")]
    pub fn label(&self, t: i64) -> Result<Option<Placed>, Error> {
        let mut placed = Placed { label: 0, place: 0 };
        match raw::up_instant(*self, t, &mut placed) {
            1 => Ok(Some(placed)),
            0 => Ok(None),
            answer => Err(Error::of_answer(answer)),
        }
    }

    /// The label of the slot of `h` that contains the whole slot `z` of this row, or none.
    ///
    /// ```
    /// use jogipahn::Reader;
    ///
    /// let days = Reader::new(&[0], 1, 1);
    /// let weeks = Reader::new(&[0, 1, 1, 1, 1, 1, 1], 7, 1);
    /// assert_eq!(days.up(weeks, 8)?, Some(2));
    /// assert_eq!(weeks.up(days, 2)?, None);
    /// # Ok::<(), jogipahn::Error>(())
    /// ```
    ///
    /// # Errors
    ///
    /// 13 for this row, then for `h`; 14 for a label outside ±1,000,000,000; 15.
    #[doc(alias = "jogipahn_up_granule")]
    pub fn up(&self, h: Reader<'_>, z: i64) -> Result<Option<i64>, Error> {
        let mut label = 0;
        match raw::up_granule(*self, h, z, &mut label) {
            1 => Ok(Some(label)),
            0 => Ok(None),
            answer => Err(Error::of_answer(answer)),
        }
    }

    /// The labels of `g`'s slots that make up the slot `z` of this row, rising, in `parts`: how many there are. The
    /// rest of the list is 0, and all of it after a refusal.
    ///
    /// ```
    /// use jogipahn::{Error, Reader};
    ///
    /// let days = Reader::new(&[0], 1, 1);
    /// let weeks = Reader::new(&[0, 1, 1, 1, 1, 1, 1], 7, 1);
    /// let mut parts = [0; 8];
    /// assert_eq!(weeks.down(days, 2, &mut parts)?, 7);
    /// assert_eq!(parts, [8, 9, 10, 11, 12, 13, 14, 0]);
    /// assert_eq!(weeks.down(days, 2, &mut parts[..6]), Err(Error::ListTooShort));
    /// # Ok::<(), jogipahn::Error>(())
    /// ```
    ///
    /// # Errors
    ///
    /// 13 for this row, then for `g`; 14 for a label outside ±1,000,000,000; 15; 16; 17.
    #[doc(alias = "jogipahn_down")]
    pub fn down(&self, g: Reader<'_>, z: i64, parts: &mut [i64]) -> Result<usize, Error> {
        let answer = raw::down(*self, g, z, parts);
        usize::try_from(answer).map_err(|_| Error::of_answer(answer))
    }

    /// As [`down`](Reader::down), in a new list that is long enough.
    ///
    /// ```
    /// use jogipahn::{Error, Reader};
    ///
    /// let days = Reader::new(&[0], 1, 1);
    /// let weeks = Reader::new(&[0, 1, 1, 1, 1, 1, 1], 7, 1);
    /// assert_eq!(weeks.parts(days, 2)?, [8, 9, 10, 11, 12, 13, 14]);
    /// assert_eq!(days.parts(weeks, 2), Err(Error::PartsIncomplete));
    /// # Ok::<(), jogipahn::Error>(())
    /// ```
    ///
    /// # Errors
    ///
    /// As [`down`](Reader::down), but for 17.
    #[doc(alias = "jogipahn_down")]
    pub fn parts(&self, g: Reader<'_>, z: i64) -> Result<Vec<i64>, Error> {
        let mut parts = vec![0; self.length(z)];
        let count = self.down(g, z, &mut parts)?;
        parts.truncate(count);
        Ok(parts)
    }

    /// How many instants the slot `z` has, where the row is sound. A slot has no more parts than instants.
    fn length(&self, z: i64) -> usize {
        if self.distance < 1 {
            return 0;
        }
        let turn = z.rem_euclid(self.distance);
        let labels = self.cells.iter().filter(|&&cell| cell != EMPTY);
        labels
            .filter(|&&label| i64::from(label).rem_euclid(self.distance) == turn)
            .count()
    }

    /// The part of the instants that is labelled, the mean length of a slot and the mean spacing. `slots` is the
    /// row's slots per period, as its [`Heading`](crate::Heading) has them.
    ///
    /// ```
    /// use jogipahn::{Error, Reader, EMPTY};
    ///
    /// let row = Reader::new(&[EMPTY, 1, 1, 2], 4, 2);
    /// let figures = row.figures(2)?;
    /// assert_eq!(figures.openness, 0.75);
    /// assert_eq!(figures.mean_length, 1.5);
    /// assert_eq!(figures.mean_spacing, 2.0);
    /// assert_eq!(row.figures(3), Err(Error::RowNotSound));
    /// # Ok::<(), Error>(())
    /// ```
    ///
    /// # Errors
    ///
    /// 13, also for a wrong number of slots.
    #[doc(alias = "jogipahn_figures")]
    pub fn figures(&self, slots: impl Into<i64>) -> Result<Figures, Error> {
        let mut figures = Figures {
            openness: 0.0,
            mean_length: 0.0,
            mean_spacing: 0.0,
        };
        match raw::figures(*self, slots.into(), &mut figures) {
            0 => Ok(figures),
            answer => Err(Error::of_answer(answer)),
        }
    }

    /// The least period of the calendar that the row means, and how many divisors were tried for it: those of the
    /// greatest common divisor of period, distance and slots per period, from the greatest down to the first that
    /// gives a period.
    ///
    /// ```
    /// use jogipahn::{LeastPeriod, Reader};
    ///
    /// let row = Reader::new(&[0, 1, 2, 3], 4, 4);
    /// assert_eq!(row.least_period()?, LeastPeriod { period: 1, tried: 1 });
    /// # Ok::<(), jogipahn::Error>(())
    /// ```
    ///
    /// # Errors
    ///
    /// 13.
    #[doc(alias = "jogipahn_least_period")]
    pub fn least_period(&self) -> Result<LeastPeriod, Error> {
        let mut tried = 0;
        match raw::least_period(*self, &mut tried) {
            period @ 1.. => Ok(LeastPeriod { period, tried }),
            answer => Err(Error::of_answer(answer)),
        }
    }

    /// Whether a delivery may be `d` instants late on the slot `z`.
    ///
    /// ```
    /// use jogipahn::{Allowance, Error, Reader, EMPTY};
    ///
    /// let week = Reader::new(&[EMPTY, 1, 1, EMPTY, 1, 1, EMPTY], 7, 1);
    /// assert!(week.may_be_late(1, 4, Allowance::Share(1.0))?);
    /// assert!(!week.may_be_late(1, 5, Allowance::Share(1.0))?);
    /// assert!(!week.may_be_late(1, 3, Allowance::Fixed(2.5))?);
    /// assert_eq!(week.may_be_late(1, 1, Allowance::Share(0.0)), Err(Error::AllowanceNotAllowed));
    /// # Ok::<(), Error>(())
    /// ```
    ///
    /// # Errors
    ///
    /// 13; 14 for a label outside ±1,000,000,000 or a lateness outside 0 to 1,048,576; 18; 15.
    #[doc(alias = "jogipahn_may_be_late")]
    pub fn may_be_late(&self, z: i64, d: i64, allowance: Allowance) -> Result<bool, Error> {
        let (rule, amount) = allowance.numbers();
        match raw::may_be_late(*self, z, d, rule, amount) {
            1 => Ok(true),
            0 => Ok(false),
            answer => Err(Error::of_answer(answer)),
        }
    }

    /// The open map of the row: a bit for each cell, set where the instant has a label.
    ///
    /// ```
    /// use jogipahn::{Reader, EMPTY};
    ///
    /// let map = Reader::new(&[EMPTY, 1, 2, EMPTY], 4, 2).open_map()?;
    /// assert_eq!(map.words(), [0b0110]);
    /// # Ok::<(), jogipahn::Error>(())
    /// ```
    ///
    /// # Errors
    ///
    /// 13.
    #[doc(alias = "jogipahn_open_map")]
    pub fn open_map(&self) -> Result<OpenMap, Error> {
        let mut words = vec![0; self.cells.len().div_ceil(64)];
        match raw::open_map(*self, &mut words) {
            0 => OpenMap::from_words(words, self.period),
            answer => Err(Error::of_answer(answer)),
        }
    }
}

impl fmt::Display for Reader<'_> {
    fn fmt(&self, f: &mut fmt::Formatter<'_>) -> fmt::Result {
        write!(f, "{} {}", self.period, self.distance)?;
        for &cell in self.cells {
            match cell {
                EMPTY => f.write_str(" .")?,
                label => write!(f, " {label}")?,
            }
        }
        Ok(())
    }
}
