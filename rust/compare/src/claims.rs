//! Finished lists for random tables, as a supplier might send them: right, or
//! with one or two changes anywhere.

use crate::random::Random;
use crate::second::{admitted, convert_entry, Stored, EMPTY, ENTRY_NUMBERS, HEADING_NUMBERS};
use crate::tables::{case, Case};

/// What the check is called with.
#[derive(Clone, Debug)]
pub struct Claim {
    pub table: Vec<i32>,
    pub headings: Vec<u32>,
    pub pool: Vec<i32>,
    /// What was changed, or supplied for an entry that conversion refuses.
    pub changes: Vec<&'static str>,
}

/// A random claim: in two of ten cases nothing is changed.
pub fn claim(random: &mut Random) -> Claim {
    let case = case(random);
    let mut lists = Lists::of(&case);
    let mut changes = Vec::new();
    if lists.refused && random.percent(80) {
        changes.push(lists.supply(&case.table, random));
    }
    for _ in 0..random.choose(&[0, 0, 1, 1, 1, 1, 1, 2, 2, 2]) {
        changes.push(lists.change(random));
    }
    Claim {
        table: case.table,
        headings: lists.headings,
        pool: lists.pool,
        changes,
    }
}

/// The lists of a table, as far as it is converted, with the rows of the
/// entries before the first that is refused.
struct Lists {
    headings: Vec<u32>,
    pool: Vec<i32>,
    rows: Vec<Stored>,
    used: usize,
    /// An entry is refused, which comes next.
    refused: bool,
}

impl Lists {
    fn of(case: &Case) -> Self {
        let mut lists = Lists {
            headings: vec![0; case.headings],
            pool: vec![EMPTY; case.pool],
            rows: Vec::new(),
            used: 0,
            refused: false,
        };
        if admitted(case.table.len(), case.headings, case.pool).is_err() {
            return lists;
        }
        for entry in case.table.chunks_exact(ENTRY_NUMBERS) {
            let (before, room) = lists.pool.split_at_mut(lists.used);
            let Ok(row) = convert_entry(entry, &lists.rows, before, room) else {
                room.fill(EMPTY);
                lists.refused = true;
                break;
            };
            room[row.period..].fill(EMPTY);
            lists.used += row.period;
            lists.rows.push(row);
        }
        lists.write_headings();
        lists
    }

    fn write_headings(&mut self) {
        for (heading, row) in self
            .headings
            .chunks_exact_mut(HEADING_NUMBERS)
            .zip(&self.rows)
        {
            heading.copy_from_slice(&row.heading());
        }
    }

    /// Supplies a heading, and a row where there is room, for the entry that is
    /// refused: that of an operand, which mostly has the period and the distance
    /// that are due, or anything.
    fn supply(&mut self, table: &[i32], random: &mut Random) -> &'static str {
        let place = self.rows.len();
        let heading = HEADING_NUMBERS * place..HEADING_NUMBERS * (place + 1);
        if heading.end > self.headings.len() {
            return "no heading supplied";
        }
        let first = table[ENTRY_NUMBERS * place + 1];
        let operand = usize::try_from(first)
            .ok()
            .and_then(|first| self.rows.get(first).copied());
        if let Some(row) = operand.filter(|_| random.percent(70)) {
            let copied = Stored {
                start: self.used,
                ..row
            };
            if self.used + row.period <= self.pool.len() {
                self.pool
                    .copy_within(row.start..row.start + row.period, self.used);
            }
            self.headings[heading].copy_from_slice(&copied.heading());
            return "a row supplied for a refused entry";
        }
        for number in &mut self.headings[heading] {
            let any = random.bits() as u32;
            *number = random.choose(&[0, 1, 7, u32::MAX, any]);
        }
        "numbers supplied for a refused entry"
    }

    /// Changes something.
    fn change(&mut self, random: &mut Random) -> &'static str {
        let rows = self.rows.len();
        match random.below(12) {
            0..=2 if rows > 0 => self.change_heading(random),
            3..=5 if rows > 0 => self.change_row(random),
            6 if rows > 0 => self.repeat_row(random),
            7 if rows > 0 => self.shorten_row(random),
            8 if rows > 0 => self.move_labels(random),
            9 | 10 if self.used < self.pool.len() => {
                let cell = random.range(self.used as i64, self.pool.len() as i64 - 1) as usize;
                let any = random.any_i32();
                self.pool[cell] = random.choose(&[0, 1, -1, any]);
                "a cell behind"
            }
            11 if HEADING_NUMBERS * rows < self.headings.len() => {
                let first = (HEADING_NUMBERS * rows) as i64;
                let place = random.range(first, self.headings.len() as i64 - 1) as usize;
                let any = random.bits() as u32;
                self.headings[place] = random.choose(&[1, 2, any]);
                "a number behind"
            }
            _ => "nothing",
        }
    }

    fn change_heading(&mut self, random: &mut Random) -> &'static str {
        let entry = random.below(self.rows.len());
        let part = random.below(HEADING_NUMBERS);
        let number = &mut self.headings[HEADING_NUMBERS * entry + part];
        let (more, less) = (number.wrapping_add(1), number.wrapping_sub(1));
        let any = random.bits() as u32;
        *number = random.choose(&[more, less, 0, number.wrapping_mul(2), any]);
        ["a start", "a period", "a distance", "a number of slots"][part]
    }

    fn change_row(&mut self, random: &mut Random) -> &'static str {
        let row = self.rows[random.below(self.rows.len())];
        let cell = &mut self.pool[row.start + random.below(row.period)];
        let (more, less) = (cell.wrapping_add(1), cell.wrapping_sub(1));
        let any = random.any_i32();
        *cell = random.choose(&[more, less, EMPTY, 0, any]);
        "a cell of a row"
    }

    /// Puts a row in place of an entry's, and the rows behind it after that.
    fn replace_row(&mut self, entry: usize, cells: Vec<i32>, distance: i64, slots: i64) {
        let old = self.rows[entry];
        let behind = self.pool[old.start + old.period..self.used].to_vec();
        let grown = cells.len() as i64 - old.period as i64;
        self.pool[old.start..].fill(EMPTY);
        self.pool[old.start..old.start + cells.len()].copy_from_slice(&cells);
        let end = old.start + cells.len();
        self.pool[end..end + behind.len()].copy_from_slice(&behind);
        self.rows[entry] = Stored {
            period: cells.len(),
            distance,
            slots,
            ..old
        };
        for row in &mut self.rows[entry + 1..] {
            row.start = (row.start as i64 + grown) as usize;
        }
        self.used = end + behind.len();
        self.write_headings();
    }

    /// Two turns of a row for one: the same calendar, not in the least form.
    fn repeat_row(&mut self, random: &mut Random) -> &'static str {
        let entry = random.below(self.rows.len());
        let row = self.rows[entry];
        if self.used + row.period > self.pool.len() {
            return "nothing";
        }
        let cells = &self.pool[row.start..row.start + row.period];
        let later = |&cell: &i32| match cell {
            EMPTY => EMPTY,
            label => label.wrapping_add(row.distance as i32),
        };
        let twice = cells
            .iter()
            .copied()
            .chain(cells.iter().map(later))
            .collect();
        self.replace_row(entry, twice, 2 * row.distance, 2 * row.slots);
        "a row twice as long"
    }

    /// The beginning of a row for the whole: it agrees there, and no further.
    fn shorten_row(&mut self, random: &mut Random) -> &'static str {
        let long: Vec<usize> = (0..self.rows.len())
            .filter(|&entry| self.rows[entry].period > 1)
            .collect();
        if long.is_empty() {
            return "nothing";
        }
        let entry = random.choose(&long);
        let row = self.rows[entry];
        let divisors = (2..=row.period.min(64)).filter(|&part| row.period.is_multiple_of(part));
        let parts: Vec<usize> = divisors.chain([row.period]).collect();
        let part = random.choose(&parts);
        let cells = self.pool[row.start..row.start + row.period / part].to_vec();
        let distance = (row.distance / part as i64).max(1);
        self.replace_row(entry, cells, distance, (row.slots / part as i64).max(1));
        "a row cut short"
    }

    /// All labels of a row are moved.
    fn move_labels(&mut self, random: &mut Random) -> &'static str {
        let row = self.rows[random.below(self.rows.len())];
        let by = random.choose(&[1, -1, row.distance as i32]);
        for cell in &mut self.pool[row.start..row.start + row.period] {
            if *cell != EMPTY {
                *cell = cell.wrapping_add(by);
            }
        }
        "labels that are moved"
    }
}
