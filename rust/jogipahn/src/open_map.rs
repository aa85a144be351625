//! Open maps, and questions to them.

use std::ops::Range;

use crate::{raw, Error};

/// Which instants are open, a bit for each of a period: questions to it go over whole words of 64 bits.
///
/// The map of a row is made with [`Reader::open_map`](crate::Reader::open_map). An instant is open where its bit is
/// set, again every period.
///
/// ```
/// use jogipahn::Table;
///
/// let mut table = Table::new();
/// let days = table.bottom();
/// let weeks = table.group(days, 7);
/// let open = table.select_down(days, weeks, 1, 5);
/// let map = table.convert(64)?.reader(open).open_map()?;
/// assert_eq!(map.count(1..366)?, 261);
/// assert_eq!(map.next(5)?, 8);
/// assert_eq!(map.nth(5, 10)?, Some(19));
/// # Ok::<(), Box<dyn std::error::Error>>(())
/// ```
#[derive(Clone, Debug, PartialEq, Eq, Hash)]
pub struct OpenMap {
    words: Vec<u64>,
    period: i64,
}

impl OpenMap {
    /// The map of these words, whoever made them. Cell c has the bit of weight 2^(c mod 64) in word c / 64.
    ///
    /// ```
    /// use jogipahn::{Error, OpenMap};
    ///
    /// let map = OpenMap::from_words(vec![0b0011_1110], 7)?;
    /// assert_eq!(map.next(5)?, 8);
    /// assert_eq!(OpenMap::from_words(vec![0], 7), Err(Error::RowNotSound));
    /// # Ok::<(), Error>(())
    /// ```
    ///
    /// # Errors
    ///
    /// 13, where the period is not 1 to 4,194,304, there are not (period + 63) / 64 words, an unused bit of the
    /// last word is set, or no bit is.
    pub fn from_words(words: Vec<u64>, period: i64) -> Result<OpenMap, Error> {
        let map = OpenMap { words, period };
        map.count(0..0)?;
        Ok(map)
    }

    /// The words.
    ///
    /// ```
    /// let map = jogipahn::OpenMap::from_words(vec![0b0011_1110], 7)?;
    /// assert_eq!(map.words(), [0b0011_1110]);
    /// # Ok::<(), jogipahn::Error>(())
    /// ```
    pub fn words(&self) -> &[u64] {
        &self.words
    }

    /// The period.
    ///
    /// ```
    /// let map = jogipahn::OpenMap::from_words(vec![0b0011_1110], 7)?;
    /// assert_eq!(map.period(), 7);
    /// # Ok::<(), jogipahn::Error>(())
    /// ```
    pub fn period(&self) -> i64 {
        self.period
    }

    /// How many instants are open, from the stretch's start up to but not including its end.
    ///
    /// ```
    /// let map = jogipahn::OpenMap::from_words(vec![0b0011_1110], 7)?;
    /// assert_eq!(map.count(1..8)?, 5);
    /// assert_eq!(map.count(6..8)?, 0);
    /// # Ok::<(), jogipahn::Error>(())
    /// ```
    ///
    /// # Errors
    ///
    /// 14 for an end outside ±1,000,000,000, or before the start.
    #[doc(alias = "jogipahn_count_open")]
    #[inline]
    pub fn count(&self, stretch: Range<i64>) -> Result<i64, Error> {
        match raw::count_open(&self.words, self.period, stretch.start, stretch.end) {
            count @ 0.. => Ok(count),
            answer => Err(Error::of_answer(answer)),
        }
    }

    /// The least open instant above `x`.
    ///
    /// ```
    /// let map = jogipahn::OpenMap::from_words(vec![0b0011_1110], 7)?;
    /// assert_eq!(map.next(5)?, 8);
    /// # Ok::<(), jogipahn::Error>(())
    /// ```
    ///
    /// # Errors
    ///
    /// 14 for an instant outside ±1,000,000,000.
    #[doc(alias = "jogipahn_next_open")]
    #[inline]
    pub fn next(&self, x: i64) -> Result<i64, Error> {
        let mut found = 0;
        let answer = raw::next_open(&self.words, self.period, x, &mut found);
        beside(answer, found)
    }

    /// The greatest open instant below `x`.
    ///
    /// ```
    /// let map = jogipahn::OpenMap::from_words(vec![0b0011_1110], 7)?;
    /// assert_eq!(map.last(8)?, 5);
    /// # Ok::<(), jogipahn::Error>(())
    /// ```
    ///
    /// # Errors
    ///
    /// 14 for an instant outside ±1,000,000,000.
    #[doc(alias = "jogipahn_last_open")]
    #[inline]
    pub fn last(&self, x: i64) -> Result<i64, Error> {
        let mut found = 0;
        let answer = raw::last_open(&self.words, self.period, x, &mut found);
        beside(answer, found)
    }

    /// The instant `n` open instants on from `x`, or back where `n` is below 0. With `n` = 0 it is `x` if `x` is
    /// open, and none otherwise; nothing else gives none.
    ///
    /// ```
    /// let map = jogipahn::OpenMap::from_words(vec![0b0011_1110], 7)?;
    /// assert_eq!(map.nth(5, 10)?, Some(19));
    /// assert_eq!(map.nth(19, -10)?, Some(5));
    /// assert_eq!(map.nth(6, 0)?, None);
    /// # Ok::<(), jogipahn::Error>(())
    /// ```
    ///
    /// # Errors
    ///
    /// 14 for an instant outside ±1,000,000,000 or a number outside ±1,000,000.
    #[doc(alias = "jogipahn_nth_open")]
    #[inline]
    pub fn nth(&self, x: i64, n: i64) -> Result<Option<i64>, Error> {
        let mut found = 0;
        match raw::nth_open(&self.words, self.period, x, n, &mut found) {
            1 => Ok(Some(found)),
            0 => Ok(None),
            answer => Err(Error::of_answer(answer)),
        }
    }

    /// How many instants t with x < t ≤ y are open, and minus that for the pair the other way round.
    ///
    /// ```
    /// let map = jogipahn::OpenMap::from_words(vec![0b0011_1110], 7)?;
    /// assert_eq!(map.between(5, 19)?, 10);
    /// assert_eq!(map.between(19, 5)?, -10);
    /// # Ok::<(), jogipahn::Error>(())
    /// ```
    ///
    /// # Errors
    ///
    /// 14 for an instant outside ±1,000,000,000.
    #[doc(alias = "jogipahn_between")]
    #[inline]
    pub fn between(&self, x: i64, y: i64) -> Result<i64, Error> {
        let mut number = 0;
        let answer = raw::between(&self.words, self.period, x, y, &mut number);
        beside(answer, number)
    }
}

/// A number that stands beside the answer 0.
#[inline]
fn beside(answer: i64, number: i64) -> Result<i64, Error> {
    match answer {
        0 => Ok(number),
        _ => Err(Error::of_answer(answer)),
    }
}
