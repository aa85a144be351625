//! Conversion in steps: the checks 1 to 3, then one entry a call.

use super::conversion::{admitted, convert_entry, Stored};
use super::questions::{least_period, Row};
use super::{EMPTY, ENTRY_NUMBERS, HEADING_NUMBERS};

/// What the start or a call says.
#[derive(Clone, Copy, Debug, PartialEq, Eq)]
pub enum Progress {
    More,
    Done,
    /// By its number and entry.
    Refused(u32, u32),
}

/// A walk over a table.
#[derive(Clone, Debug)]
pub struct Walk {
    /// How long the three lists were at the start.
    lengths: [usize; 3],
    /// The entry due.
    due: usize,
    progress: Progress,
}

impl Walk {
    /// Begins a walk. Both lists are empty then.
    pub fn start(table: &[i32], headings: &mut [u32], pool: &mut [i32]) -> Self {
        let lengths = [table.len(), headings.len(), pool.len()];
        let progress = match admitted(table.len(), headings.len(), pool.len()) {
            Ok(_) => Progress::More,
            Err(number) => Progress::Refused(number, 0),
        };
        empty(headings, pool);
        Walk {
            lengths,
            due: 0,
            progress,
        }
    }

    pub fn progress(&self) -> Progress {
        self.progress
    }

    /// Takes the entry that is due; a walk that has ended stays.
    pub fn step(&mut self, table: &[i32], headings: &mut [u32], pool: &mut [i32]) -> Progress {
        if self.progress == Progress::More {
            self.progress = match self.take(table, headings, pool) {
                Ok(()) => {
                    self.due += 1;
                    if self.due * ENTRY_NUMBERS == self.lengths[0] {
                        Progress::Done
                    } else {
                        Progress::More
                    }
                }
                Err(number) => {
                    empty(headings, pool);
                    Progress::Refused(number, self.due as u32)
                }
            };
        }
        self.progress
    }

    fn take(&self, table: &[i32], headings: &mut [u32], pool: &mut [i32]) -> Result<(), u32> {
        if [table.len(), headings.len(), pool.len()] != self.lengths {
            return Err(13);
        }
        let stored = standing(headings, pool, self.due).ok_or(13u32)?;
        let used = stored.iter().map(|row| row.period).sum();
        let entry = &table[ENTRY_NUMBERS * self.due..][..ENTRY_NUMBERS];
        let (rows, room) = pool.split_at_mut(used);
        let row = convert_entry(entry, &stored, rows, room)?;
        room[row.period..].fill(EMPTY);
        headings[HEADING_NUMBERS * self.due..][..HEADING_NUMBERS].copy_from_slice(&row.heading());
        Ok(())
    }
}

fn empty(headings: &mut [u32], pool: &mut [i32]) {
    headings.fill(0);
    pool.fill(EMPTY);
}

/// The rows that stand in the lists, if these are so many rows, one behind the
/// other, each one 13 lets pass and in its least form, and nothing else.
fn standing(headings: &[u32], pool: &[i32], count: usize) -> Option<Vec<Stored>> {
    let (told, beyond) = headings.split_at(HEADING_NUMBERS * count);
    let mut behind = pool;
    let mut stored = Vec::with_capacity(count);
    for heading in told.chunks_exact(HEADING_NUMBERS) {
        let &[start, period, distance, slots] = heading else {
            unreachable!("a heading has four numbers");
        };
        let cells = behind.get(..period as usize)?;
        let row = Row {
            cells,
            period: period.into(),
            distance: distance.into(),
        };
        let is_least = least_period(row).ok()?.0 == row.period;
        let is_right = start as usize == pool.len() - behind.len()
            && i64::from(slots) == slots_per_period(cells, row.distance);
        if !is_least || !is_right {
            return None;
        }
        stored.push(Stored {
            start: start as usize,
            period: cells.len(),
            distance: row.distance,
            slots: slots.into(),
            working_period: cells.len(),
        });
        behind = &behind[cells.len()..];
    }
    let nothing = beyond.iter().all(|&number| number == 0) && behind.iter().all(|&c| c == EMPTY);
    nothing.then_some(stored)
}

/// How many labels there are among as many whole numbers as the distance.
fn slots_per_period(cells: &[i32], distance: i64) -> i64 {
    let labels = cells.iter().filter(|&&cell| cell != EMPTY);
    let mut places: Vec<i64> = labels
        .map(|&label| i64::from(label).rem_euclid(distance))
        .collect();
    places.sort_unstable();
    places.dedup();
    places.len() as i64
}
