//! Tables of calendars.

/// How many numbers an entry has.
const ENTRY_NUMBERS: usize = 6;

/// An entry of a [`Table`], by its index from 0.
///
/// ```
/// use jogipahn::{Entry, Table};
///
/// let mut table = Table::new();
/// assert_eq!(table.bottom(), Entry::new(0));
/// ```
#[derive(Clone, Copy, Debug, PartialEq, Eq, PartialOrd, Ord, Hash)]
pub struct Entry(usize);

impl Entry {
    /// The entry with an index.
    ///
    /// ```
    /// assert_eq!(jogipahn::Entry::new(3).index(), 3);
    /// ```
    pub const fn new(index: usize) -> Entry {
        Entry(index)
    }

    /// The index of the entry.
    ///
    /// ```
    /// assert_eq!(jogipahn::Table::new().bottom().index(), 0);
    /// ```
    pub const fn index(self) -> usize {
        self.0
    }

    /// The index as a number of a table. One that has none names no entry that a table may have, and is refused
    /// there.
    fn number(self) -> i32 {
        i32::try_from(self.0).unwrap_or(i32::MAX)
    }
}

/// A table of calendars, each an operation over earlier ones.
///
/// Each method puts an entry behind the others and gives its index. Nothing is judged before the table is
/// converted: a number outside the limits that are named here is refused there, with the entry.
///
/// ```
/// use jogipahn::Table;
///
/// let mut table = Table::new();
/// let days = table.bottom();
/// let weeks = table.group(days, 7);
/// let open = table.select_down(days, weeks, 1, 5);
/// let rows = table.convert(64)?;
/// assert_eq!(rows.reader(weeks).cells(), [0, 1, 1, 1, 1, 1, 1]);
/// assert_eq!(rows.reader(open).to_string(), "7 7 . 1 2 3 4 5 .");
/// # Ok::<(), jogipahn::Refused>(())
/// ```
#[derive(Clone, Debug, Default, PartialEq, Eq, Hash)]
pub struct Table {
    numbers: Vec<i32>,
}

impl Table {
    /// A table without entries. It needs one at least.
    ///
    /// ```
    /// use jogipahn::{Error, Table};
    ///
    /// assert_eq!(Table::new().convert(64).unwrap_err().error, Error::TableLength);
    /// ```
    pub const fn new() -> Table {
        Table {
            numbers: Vec::new(),
        }
    }

    /// The table of these numbers, six an entry: kind, first, second, x, y, z. Numbers that are left over make it one
    /// that is refused.
    ///
    /// ```
    /// use jogipahn::{Entry, Table};
    ///
    /// let table = Table::from_numbers(&[0, 0, 0, 0, 0, 0, 1, 0, 0, 7, 0, 0]);
    /// let rows = table.convert(8)?;
    /// assert_eq!(rows.reader(Entry::new(1)).period(), 7);
    /// # Ok::<(), jogipahn::Refused>(())
    /// ```
    pub fn from_numbers(numbers: &[i32]) -> Table {
        Table {
            numbers: numbers.to_vec(),
        }
    }

    /// The numbers of the table.
    ///
    /// ```
    /// let mut table = jogipahn::Table::new();
    /// let days = table.bottom();
    /// table.group(days, 7);
    /// assert_eq!(table.as_numbers(), [0, 0, 0, 0, 0, 0, 1, 0, 0, 7, 0, 0]);
    /// ```
    pub fn as_numbers(&self) -> &[i32] {
        &self.numbers
    }

    /// How many entries there are.
    ///
    /// ```
    /// assert_eq!(jogipahn::civil::table().len(), 11);
    /// ```
    pub fn len(&self) -> usize {
        self.numbers.len() / ENTRY_NUMBERS
    }

    /// Whether there is no entry.
    ///
    /// ```
    /// assert!(jogipahn::Table::new().is_empty());
    /// ```
    pub fn is_empty(&self) -> bool {
        self.len() == 0
    }

    /// Any entry, as its six numbers: kind, first, second, x, y, z.
    ///
    /// ```
    /// let mut table = jogipahn::Table::new();
    /// let days = table.push([0, 0, 0, 0, 0, 0]);
    /// assert_eq!(days.index(), 0);
    /// ```
    pub fn push(&mut self, numbers: [i32; ENTRY_NUMBERS]) -> Entry {
        let entry = Entry(self.len());
        self.numbers.extend(numbers);
        entry
    }

    /// Kind 0: each instant is its own label.
    ///
    /// ```
    /// let mut table = jogipahn::Table::new();
    /// let days = table.bottom();
    /// assert_eq!(table.convert(1)?.reader(days).to_string(), "1 1 0");
    /// # Ok::<(), jogipahn::Refused>(())
    /// ```
    pub fn bottom(&mut self) -> Entry {
        self.push([0; ENTRY_NUMBERS])
    }

    /// Kind 1: `x` slots of `a` are one, so that label j becomes ceil(j / x). `a` is full, `x` is 1 to 1,000,000.
    ///
    /// ```
    /// let mut table = jogipahn::Table::new();
    /// let days = table.bottom();
    /// let weeks = table.group(days, 7);
    /// assert_eq!(table.convert(64)?.reader(weeks).to_string(), "7 1 0 1 1 1 1 1 1");
    /// # Ok::<(), jogipahn::Refused>(())
    /// ```
    pub fn group(&mut self, a: Entry, x: i32) -> Entry {
        self.push([1, a.number(), 0, x, 0, 0])
    }

    /// Kind 2: label j becomes j + x. `x` is within ±1,000,000,000.
    ///
    /// ```
    /// let mut table = jogipahn::Table::new();
    /// let days = table.bottom();
    /// let shifted = table.shift(days, -4);
    /// assert_eq!(table.convert(64)?.reader(shifted).to_string(), "1 1 -4");
    /// # Ok::<(), jogipahn::Refused>(())
    /// ```
    pub fn shift(&mut self, a: Entry, x: i32) -> Entry {
        self.push([2, a.number(), 0, x, 0, 0])
    }

    /// Kind 3: of each `x` slots of `coarse` the `y`-th gets `z` slots of `fine` more, or fewer where `z` is below 0.
    /// Both are full, `x` is 1 to 1,000,000, `y` 1 to `x`, `z` within ±1,000,000.
    ///
    /// ```
    /// let mut table = jogipahn::Table::new();
    /// let days = table.bottom();
    /// let pairs = table.group(days, 2);
    /// let altered = table.alter(days, pairs, 3, 2, 1);
    /// assert_eq!(table.convert(64)?.reader(altered).to_string(), "7 3 0 1 1 2 2 2 3");
    /// # Ok::<(), jogipahn::Refused>(())
    /// ```
    pub fn alter(&mut self, fine: Entry, coarse: Entry, x: i32, y: i32, z: i32) -> Entry {
        self.push([3, fine.number(), coarse.number(), x, y, z])
    }

    /// Kind 4: slot i is the union of `b`'s slots inside `a`'s slot i.
    ///
    /// ```
    /// let mut table = jogipahn::Table::new();
    /// let days = table.bottom();
    /// let weeks = table.group(days, 7);
    /// let pairs = table.group(days, 2);
    /// let combined = table.combine(weeks, pairs);
    /// assert_eq!(table.convert(64)?.reader(combined).to_string(), "14 2 0 1 1 1 1 1 1 . . 2 2 2 2 2");
    /// # Ok::<(), jogipahn::Refused>(())
    /// ```
    pub fn combine(&mut self, a: Entry, b: Entry) -> Entry {
        self.push([4, a.number(), b.number(), 0, 0, 0])
    }

    /// Kind 5: an instant labelled j in `a` gets `b`'s greatest label not above j. `a` is full, and each slot of
    /// `b` is the slot of `a` with that label.
    ///
    /// ```
    /// let mut table = jogipahn::Table::new();
    /// let days = table.bottom();
    /// let pairs = table.group(days, 2);
    /// let odd = table.select_down(days, pairs, 1, 1);
    /// let anchored = table.anchor(days, odd);
    /// assert_eq!(table.convert(64)?.reader(anchored).to_string(), "2 2 -1 1");
    /// # Ok::<(), jogipahn::Refused>(())
    /// ```
    pub fn anchor(&mut self, a: Entry, b: Entry) -> Entry {
        self.push([5, a.number(), b.number(), 0, 0, 0])
    }

    /// Kind 6: of `a`'s slots inside each slot of `b`, `y` from the `x`-th on, counted from the end where `x` is
    /// below 0. `x` is within ±1,000,000 and not 0, `y` is 1 to 1,000,000.
    ///
    /// ```
    /// let mut table = jogipahn::Table::new();
    /// let days = table.bottom();
    /// let weeks = table.group(days, 7);
    /// let weekends = table.select_down(days, weeks, -2, 2);
    /// assert_eq!(table.convert(64)?.reader(weekends).to_string(), "7 7 0 . . . . . 6");
    /// # Ok::<(), jogipahn::Refused>(())
    /// ```
    pub fn select_down(&mut self, a: Entry, b: Entry, x: i32, y: i32) -> Entry {
        self.push([6, a.number(), b.number(), x, y, 0])
    }

    /// Kind 7: those slots of `a` that hold a whole slot of `b`.
    ///
    /// ```
    /// let mut table = jogipahn::Table::new();
    /// let days = table.bottom();
    /// let pairs = table.group(days, 2);
    /// let weeks = table.group(days, 7);
    /// let first = table.select_down(days, weeks, 1, 1);
    /// let with_first = table.select_up(pairs, first);
    /// assert_eq!(table.convert(64)?.reader(with_first).to_string(), "14 7 . 1 1 . . . . 4 4 . . . . .");
    /// # Ok::<(), jogipahn::Refused>(())
    /// ```
    pub fn select_up(&mut self, a: Entry, b: Entry) -> Entry {
        self.push([7, a.number(), b.number(), 0, 0, 0])
    }

    /// Kind 8: as [`select_down`](Table::select_down), of `a`'s slots that share an instant with each slot of `b`.
    ///
    /// ```
    /// let mut table = jogipahn::Table::new();
    /// let days = table.bottom();
    /// let pairs = table.group(days, 2);
    /// let weeks = table.group(days, 7);
    /// let last = table.select_by_meeting(pairs, weeks, -1, 1);
    /// assert_eq!(table.convert(64)?.reader(last).to_string(), "14 7 0 . . . . . . 4 4 . . . . 7");
    /// # Ok::<(), jogipahn::Refused>(())
    /// ```
    pub fn select_by_meeting(&mut self, a: Entry, b: Entry, x: i32, y: i32) -> Entry {
        self.push([8, a.number(), b.number(), x, y, 0])
    }

    /// Kind 9: the slots of `a` and those of `b`, by labels.
    ///
    /// ```
    /// let mut table = jogipahn::Table::new();
    /// let days = table.bottom();
    /// let weeks = table.group(days, 7);
    /// let first = table.select_down(days, weeks, 1, 1);
    /// let fourth = table.select_down(days, weeks, 4, 1);
    /// let both = table.union(first, fourth);
    /// assert_eq!(table.convert(64)?.reader(both).to_string(), "7 7 . 1 . . 4 . .");
    /// # Ok::<(), jogipahn::Refused>(())
    /// ```
    pub fn union(&mut self, a: Entry, b: Entry) -> Entry {
        self.push([9, a.number(), b.number(), 0, 0, 0])
    }

    /// Kind 10: the slots of `a` that `b` has too, by labels.
    ///
    /// ```
    /// let mut table = jogipahn::Table::new();
    /// let days = table.bottom();
    /// let weeks = table.group(days, 7);
    /// let early = table.select_down(days, weeks, 1, 4);
    /// let late = table.select_down(days, weeks, 4, 4);
    /// let both = table.intersection(early, late);
    /// assert_eq!(table.convert(64)?.reader(both).to_string(), "7 7 . . . . 4 . .");
    /// # Ok::<(), jogipahn::Refused>(())
    /// ```
    pub fn intersection(&mut self, a: Entry, b: Entry) -> Entry {
        self.push([10, a.number(), b.number(), 0, 0, 0])
    }

    /// Kind 11: the slots of `a` that `b` does not have, by labels.
    ///
    /// ```
    /// let mut table = jogipahn::Table::new();
    /// let days = table.bottom();
    /// let weeks = table.group(days, 7);
    /// let open = table.select_down(days, weeks, 1, 5);
    /// let closed = table.difference(days, open);
    /// assert_eq!(table.convert(64)?.reader(closed).to_string(), "7 7 0 . . . . . 6");
    /// # Ok::<(), jogipahn::Refused>(())
    /// ```
    pub fn difference(&mut self, a: Entry, b: Entry) -> Entry {
        self.push([11, a.number(), b.number(), 0, 0, 0])
    }

    /// Kind 12: the least label of `a` from `x` on becomes 1, and its neighbours follow one by one both ways. `x` is
    /// within ±1,000,000,000.
    ///
    /// ```
    /// let mut table = jogipahn::Table::new();
    /// let days = table.bottom();
    /// let weeks = table.group(days, 7);
    /// let open = table.select_down(days, weeks, 1, 5);
    /// let slots = table.renumber(open, 1);
    /// assert_eq!(table.convert(64)?.reader(slots).to_string(), "7 5 . 1 2 3 4 5 .");
    /// # Ok::<(), jogipahn::Refused>(())
    /// ```
    pub fn renumber(&mut self, a: Entry, x: i32) -> Entry {
        self.push([12, a.number(), 0, x, 0, 0])
    }
}
