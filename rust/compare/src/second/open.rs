//! Open maps and questions to them, cell by cell.
//!
//! A map shows which cells of a row are open, in words of 64: cell c has weight
//! 2^(c mod 64) in word floor(c / 64). Here a map is written out first, one
//! truth value a cell.

use super::questions::{test, within_limit, Row};
use super::{CELL_LIMIT, EMPTY};

/// How many cells a word shows.
pub const WORD: usize = 64;

/// So many steps are the most, forward or backward.
pub const STEP_LIMIT: i64 = 1_000_000;

/// The open map of a row.
pub fn open_map(row: Row) -> Result<Vec<u64>, u32> {
    let mut words = vec![0; words_for(row.cells.len())];
    open_map_into(row, &mut words)?;
    Ok(words)
}

/// The open map of a row in a lent list, which must have the right length. The
/// list is zero after a refusal.
pub fn open_map_into(row: Row, words: &mut [u64]) -> Result<(), u32> {
    words.fill(0);
    test(row)?;
    if words.len() != words_for(row.cells.len()) {
        return Err(13);
    }
    for (cell, &label) in row.cells.iter().enumerate() {
        if label != EMPTY {
            words[cell / WORD] += 1 << (cell % WORD);
        }
    }
    Ok(())
}

/// How many instants from s up to but not including t are open.
pub fn count_open(words: &[u64], period: i64, s: i64, t: i64) -> Result<i64, u32> {
    let open = Open::shown(words, period)?;
    within_limit(s)?;
    within_limit(t)?;
    if s > t {
        return Err(14);
    }
    Ok(open.count(s, t))
}

/// The least open instant above x.
pub fn next_open(words: &[u64], period: i64, x: i64) -> Result<i64, u32> {
    let open = Open::shown(words, period)?;
    within_limit(x)?;
    Ok(open.next(x))
}

/// The greatest open instant below x.
pub fn last_open(words: &[u64], period: i64, x: i64) -> Result<i64, u32> {
    let open = Open::shown(words, period)?;
    within_limit(x)?;
    Ok(open.last(x))
}

/// The instant so many steps after x, or before it where the number is below 0.
pub fn nth_open(words: &[u64], period: i64, x: i64, steps: i64) -> Result<Option<i64>, u32> {
    let open = Open::shown(words, period)?;
    within_limit(x)?;
    if !(-STEP_LIMIT..=STEP_LIMIT).contains(&steps) {
        return Err(14);
    }
    Ok(open.nth(x, steps))
}

/// How many instants above x and up to y are open; minus that for the pair the
/// other way round.
pub fn between(words: &[u64], period: i64, x: i64, y: i64) -> Result<i64, u32> {
    let open = Open::shown(words, period)?;
    within_limit(x)?;
    within_limit(y)?;
    Ok(if x <= y {
        open.count(x + 1, y + 1)
    } else {
        -open.count(y + 1, x + 1)
    })
}

/// How many words show so many cells.
pub fn words_for(cells: usize) -> usize {
    cells.div_ceil(WORD)
}

/// Open instants: a truth value for each cell, repeated without end. At least
/// one is true.
#[derive(Clone, Debug)]
pub struct Open {
    cells: Vec<bool>,
}

impl Open {
    /// What a map shows, if it is one.
    pub fn shown(words: &[u64], period: i64) -> Result<Self, u32> {
        let cells = usize::try_from(period).map_err(|_| 13u32)?;
        if !(1..=CELL_LIMIT).contains(&cells) || words.len() != words_for(cells) {
            return Err(13);
        }
        let bits_of = |&word: &u64| (0..WORD).map(move |bit| word >> bit & 1 == 1);
        let mut bits: Vec<bool> = words.iter().flat_map(bits_of).collect();
        let unused = bits.split_off(cells);
        if unused.contains(&true) || !bits.contains(&true) {
            return Err(13);
        }
        Ok(Open { cells: bits })
    }

    pub fn period(&self) -> i64 {
        self.cells.len() as i64
    }

    pub fn is_open(&self, t: i64) -> bool {
        self.cells[self.cell(t)]
    }

    /// How many instants of a turn are open.
    pub fn per_turn(&self) -> i64 {
        true_ones(self.cells.iter())
    }

    fn count(&self, s: i64, t: i64) -> i64 {
        let turns = (t - s) / self.period();
        let rest = (t - s) % self.period();
        turns * self.per_turn() + true_ones(self.turn_from(s).take(rest as usize))
    }

    fn next(&self, x: i64) -> i64 {
        let closed = self.turn_from(x + 1).take_while(|&&open| !open);
        x + 1 + closed.count() as i64
    }

    fn last(&self, x: i64) -> i64 {
        // The turn that ends just below x has the cells of the one that begins there.
        let closed = self.turn_from(x).rev().take_while(|&&open| !open);
        x - 1 - closed.count() as i64
    }

    /// One step after the other.
    pub fn nth_by_steps(&self, x: i64, steps: i64) -> Option<i64> {
        match steps {
            0 => self.is_open(x).then_some(x),
            1.. => Some((0..steps).fold(x, |t, _| self.next(t))),
            _ => Some((steps..0).fold(x, |t, _| self.last(t))),
        }
    }

    /// Whole turns first, as long as a step is left: as many are open in each.
    fn nth(&self, x: i64, steps: i64) -> Option<i64> {
        let turns = (steps.abs() - 1).max(0) / self.per_turn() * steps.signum();
        self.nth_by_steps(x + turns * self.period(), steps - turns * self.per_turn())
    }

    /// The cells of the instants from t on, a turn of them.
    fn turn_from(&self, t: i64) -> impl DoubleEndedIterator<Item = &bool> {
        let (before, from) = self.cells.split_at(self.cell(t));
        from.iter().chain(before)
    }

    fn cell(&self, t: i64) -> usize {
        t.rem_euclid(self.period()) as usize
    }
}

fn true_ones<'a>(cells: impl Iterator<Item = &'a bool>) -> i64 {
    cells.filter(|&&open| open).count() as i64
}
