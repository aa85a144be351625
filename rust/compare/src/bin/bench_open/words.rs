//! The hand-written way: over a map's words and their ones. It is called, not
//! inlined, and tests and refuses a map, as the core does.

use jogipahn_compare::second::open::STEP_LIMIT;
use jogipahn_compare::second::{CELL_LIMIT, LABEL_LIMIT};

#[derive(Clone, Copy)]
pub struct Map<'a> {
    pub words: &'a [u64],
    pub period: i64,
}

impl Map<'_> {
    #[inline(never)]
    pub fn count(self, s: i64, t: i64) -> Result<i64, u32> {
        self.tested(s <= t && in_range(s) && in_range(t))?;
        let count = self.open_from(s, t);
        // Where something is counted, a bit is set.
        if count == 0 && !self.any() {
            return Err(13);
        }
        Ok(count)
    }

    #[inline(never)]
    pub fn between(self, x: i64, y: i64) -> Result<i64, u32> {
        self.tested(in_range(x) && in_range(y))?;
        let number = self.open_from(x.min(y) + 1, x.max(y) + 1);
        if number == 0 && !self.any() {
            return Err(13);
        }
        Ok(if x <= y { number } else { -number })
    }

    #[inline(never)]
    pub fn next(self, x: i64) -> Result<i64, u32> {
        self.tested(in_range(x))?;
        self.after(x)
    }

    #[inline(never)]
    pub fn last(self, x: i64) -> Result<i64, u32> {
        self.tested(in_range(x))?;
        self.before(x)
    }

    #[inline(never)]
    pub fn nth(self, x: i64, steps: i64) -> Result<Option<i64>, u32> {
        self.tested(in_range(x) && steps.unsigned_abs() <= STEP_LIMIT as u64)?;
        match steps {
            0 if self.is_open(x) => Ok(Some(x)),
            0 if self.any() => Ok(None),
            0 => Err(13),
            1.. => self.forward(x, steps).map(Some),
            _ => self.backward(x, -steps).map(Some),
        }
    }

    /// So many single steps, the map being tested once.
    #[inline(never)]
    pub fn nth_by_steps(self, x: i64, steps: i64) -> Result<Option<i64>, u32> {
        self.tested(in_range(x) && steps.unsigned_abs() <= STEP_LIMIT as u64)?;
        match steps {
            0 => self.nth(x, 0),
            1.. => (0..steps).try_fold(x, |t, _| self.after(t)).map(Some),
            _ => (steps..0).try_fold(x, |t, _| self.before(t)).map(Some),
        }
    }

    fn is_open(self, t: i64) -> bool {
        let cell = self.split(t).1;
        self.words[cell / 64] >> (cell % 64) & 1 == 1
    }

    /// Looks in the turn at hand, then goes whole turns.
    fn forward(self, x: i64, steps: i64) -> Result<i64, u32> {
        let (turn, cell) = self.split(x + 1);
        let here = match select(self.words, cell, steps) {
            Ok(cell) => return Ok(turn * self.period + cell as i64),
            Err(here) => here,
        };
        let all = here + self.ones(0, cell);
        let turns = (steps - here - 1).checked_div(all).ok_or(13u32)?;
        let found = select(self.words, 0, steps - here - turns * all);
        let cell = found.expect("as many in a turn");
        Ok((turn + 1 + turns) * self.period + cell as i64)
    }

    fn backward(self, x: i64, steps: i64) -> Result<i64, u32> {
        let (turn, cell) = self.split(x);
        let here = match select_down(self.words, cell, steps) {
            Ok(cell) => return Ok(turn * self.period + cell as i64),
            Err(here) => here,
        };
        let all = here + self.ones(cell, self.period as usize);
        let turns = (steps - here - 1).checked_div(all).ok_or(13u32)?;
        let rest = steps - here - turns * all;
        let found = select_down(self.words, self.period as usize, rest);
        let cell = found.expect("as many in a turn");
        Ok((turn - 1 - turns) * self.period + cell as i64)
    }

    fn after(self, x: i64) -> Result<i64, u32> {
        let (turn, cell) = self.split(x + 1);
        let word = cell / 64;
        let here = self.words[word] & (u64::MAX << (cell % 64));
        if here != 0 {
            return Ok(self.instant(turn, word, here.trailing_zeros()));
        }
        let first = |words: &[u64]| words.iter().position(|&word| word != 0);
        let (turn, word) = match first(&self.words[word + 1..]) {
            Some(further) => (turn, word + 1 + further),
            None => (turn + 1, first(self.words).ok_or(13u32)?),
        };
        Ok(self.instant(turn, word, self.words[word].trailing_zeros()))
    }

    fn before(self, x: i64) -> Result<i64, u32> {
        let (turn, cell) = self.split(x - 1);
        let word = cell / 64;
        let here = self.words[word] & (u64::MAX >> (63 - cell % 64));
        if here != 0 {
            return Ok(self.instant(turn, word, 63 - here.leading_zeros()));
        }
        let last = |words: &[u64]| words.iter().rposition(|&word| word != 0);
        let (turn, word) = match last(&self.words[..word]) {
            Some(word) => (turn, word),
            None => (turn - 1, last(self.words).ok_or(13u32)?),
        };
        Ok(self.instant(turn, word, 63 - self.words[word].leading_zeros()))
    }

    /// Refusals 13 and 14. That no bit is set comes out later, unless 14 does.
    fn tested(self, allowed: bool) -> Result<(), u32> {
        let used = self.period & 63;
        let fits = (1..=CELL_LIMIT as i64).contains(&self.period)
            && self.words.len() as i64 == (self.period + 63) / 64
            && (used == 0 || self.words[self.words.len() - 1] >> used == 0);
        match (fits, allowed) {
            (true, true) => Ok(()),
            (true, false) if self.any() => Err(14),
            _ => Err(13),
        }
    }

    fn any(self) -> bool {
        self.words.iter().any(|&word| word != 0)
    }

    fn open_from(self, s: i64, t: i64) -> i64 {
        let ((first_turn, first), (last_turn, end)) = (self.split(s), self.split(t));
        let ones = |from, to| self.ones(from, to);
        let (turns, cells) = (last_turn - first_turn, self.period as usize);
        // Each word is counted once, for a whole turn and for what is over.
        match turns {
            0 => ones(first, end),
            1 if end <= first => ones(0, end) + ones(first, cells),
            _ if end <= first => {
                let over = ones(0, end) + ones(first, cells);
                (turns - 1) * (over + ones(end, first)) + over
            }
            _ => {
                let over = ones(first, end);
                turns * (ones(0, first) + over + ones(end, cells)) + over
            }
        }
    }

    /// The open cells from one up to but not including another.
    fn ones(self, from: usize, to: usize) -> i64 {
        if from >= to {
            return 0;
        }
        let (first, last) = (from / 64, (to - 1) / 64);
        let (low, high) = (u64::MAX << (from % 64), u64::MAX >> (63 - (to - 1) % 64));
        if first == last {
            return (self.words[first] & low & high).count_ones().into();
        }
        let ends = (self.words[first] & low).count_ones() + (self.words[last] & high).count_ones();
        i64::from(ends) + total(&self.words[first + 1..last])
    }

    fn split(self, t: i64) -> (i64, usize) {
        let turn = t.div_euclid(self.period);
        (turn, (t - turn * self.period) as usize)
    }

    fn instant(self, turn: i64, word: usize, bit: u32) -> i64 {
        turn * self.period + 64 * word as i64 + i64::from(bit)
    }
}

/// Words that are counted together, before the one with the bit is looked for.
const BLOCK: usize = 16;

/// The k-th open cell from one on, or how many there are.
fn select(words: &[u64], from: usize, k: i64) -> Result<usize, i64> {
    let Some(&first) = words.get(from / 64) else {
        return Err(0);
    };
    let mut word = first & (u64::MAX << (from % 64));
    let mut at = from / 64;
    let mut left = k;
    loop {
        let ones = i64::from(word.count_ones());
        if left <= ones {
            return Ok(64 * at + place_of(word, left));
        }
        left -= ones;
        at += 1;
        while let Some(block) = words.get(at..at + BLOCK) {
            let ones = total(block);
            if left <= ones {
                break;
            }
            left -= ones;
            at += BLOCK;
        }
        match words.get(at) {
            Some(&next) => word = next,
            None => return Err(k - left),
        }
    }
}

/// The k-th open cell below one, downward, or how many there are.
fn select_down(words: &[u64], below: usize, k: i64) -> Result<usize, i64> {
    if below == 0 {
        return Err(0);
    }
    let mut at = (below - 1) / 64;
    let mut word = words[at] & (u64::MAX >> (63 - (below - 1) % 64));
    let mut left = k;
    loop {
        let ones = i64::from(word.count_ones());
        if left <= ones {
            return Ok(64 * at + place_of(word, ones + 1 - left));
        }
        left -= ones;
        while at >= BLOCK {
            let ones = total(&words[at - BLOCK..at]);
            if left <= ones {
                break;
            }
            left -= ones;
            at -= BLOCK;
        }
        if at == 0 {
            return Err(k - left);
        }
        at -= 1;
        word = words[at];
    }
}

/// The place of the k-th one of a word that has as many.
fn place_of(mut word: u64, mut k: i64) -> usize {
    let mut place = 0;
    for width in [32, 16, 8] {
        let low = i64::from((word & ((1 << width) - 1)).count_ones());
        if k > low {
            k -= low;
            word >>= width;
            place += width;
        }
    }
    for _ in 1..k {
        word &= word - 1;
    }
    place + word.trailing_zeros() as usize
}

fn total(words: &[u64]) -> i64 {
    words
        .iter()
        .map(|word| u64::from(word.count_ones()))
        .sum::<u64>() as i64
}

fn in_range(t: i64) -> bool {
    t.unsigned_abs() <= LABEL_LIMIT as u64
}
