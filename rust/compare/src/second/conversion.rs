//! Conversion of a whole table: the checks, the entries one by one, the lists.

use super::kinds::{self, Pick, Sets, Working};
use super::least::{survey, times_repeated};
use super::slots::Operand;
use super::{CELL_LIMIT, EMPTY, ENTRY_LIMIT, ENTRY_NUMBERS, HEADING_NUMBERS, LABEL_LIMIT};

/// Converts a table.
///
/// Answered, the pool holds the least row of each entry one behind the other
/// and "." behind the last, and the headings hold start, period, distance and
/// slots per period of each entry and zero behind the last. A refusal is told by
/// its number and entry, every cell is "." then and every heading zero.
pub fn convert(table: &[i32], headings: &mut [u32], pool: &mut [i32]) -> Result<(), (u32, u32)> {
    let answer = convert_all(table, headings, pool);
    if answer.is_err() {
        headings.fill(0);
        pool.fill(EMPTY);
    }
    answer
}

/// Where a finished entry's least row stands, and what is known of it.
#[derive(Clone, Copy, Debug)]
pub(crate) struct Stored {
    pub start: usize,
    pub period: usize,
    pub distance: i64,
    /// Slots per period.
    pub slots: i64,
    /// The period of the working row that it was shortened from.
    pub working_period: usize,
}

impl Stored {
    pub fn heading(&self) -> [u32; HEADING_NUMBERS] {
        let (start, period) = (self.start as u32, self.period as u32);
        [start, period, self.distance as u32, self.slots as u32]
    }

    pub fn is_full(&self) -> bool {
        self.slots == self.distance
    }
}

/// The checks 1, 2 and 3 of lists by their lengths: how many entries there are,
/// or the number of the refusal.
pub(crate) fn admitted(table: usize, headings: usize, pool: usize) -> Result<usize, u32> {
    let entries = table / ENTRY_NUMBERS;
    if !table.is_multiple_of(ENTRY_NUMBERS) || !(1..=ENTRY_LIMIT).contains(&entries) {
        return Err(1);
    }
    if headings / HEADING_NUMBERS < entries {
        return Err(2);
    }
    if pool > CELL_LIMIT {
        return Err(3);
    }
    Ok(entries)
}

fn convert_all(table: &[i32], headings: &mut [u32], pool: &mut [i32]) -> Result<(), (u32, u32)> {
    let entries =
        admitted(table.len(), headings.len(), pool.len()).map_err(|number| (number, 0))?;
    let mut stored = Vec::with_capacity(entries);
    let mut used = 0;
    for (number, entry) in (0..).zip(table.chunks_exact(ENTRY_NUMBERS)) {
        let (rows, room) = pool.split_at_mut(used);
        let row = convert_entry(entry, &stored, rows, room).map_err(|refusal| (refusal, number))?;
        used += row.period;
        stored.push(row);
    }
    headings.fill(0);
    for (heading, row) in headings.chunks_exact_mut(HEADING_NUMBERS).zip(&stored) {
        heading.copy_from_slice(&row.heading());
    }
    pool[used..].fill(EMPTY);
    Ok(())
}

/// Converts one entry whose operands stand in `rows`. Its least row begins the
/// room then, and what is behind it there is of no use.
pub(crate) fn convert_entry(
    entry: &[i32],
    stored: &[Stored],
    rows: &[i32],
    room: &mut [i32],
) -> Result<Stored, u32> {
    let &[kind, first, second, x, y, z] = entry else {
        unreachable!("an entry has six numbers");
    };
    if !(0..=12).contains(&kind) {
        return Err(4);
    }
    let operand = |name: i32| -> Result<Operand, u32> {
        let row = usize::try_from(name).ok().and_then(|name| stored.get(name));
        let row = row.ok_or(5u32)?;
        Ok(Operand {
            cells: &rows[row.start..row.start + row.period],
            distance: row.distance,
            slots: row.slots,
        })
    };
    let a = if kind == 0 {
        None
    } else {
        Some(operand(first)?)
    };
    let b = if has_two_operands(kind) {
        Some(operand(second)?)
    } else {
        None
    };
    if !numbers_allowed(entry) {
        return Err(6);
    }

    let (wide_x, wide_y, wide_z) = (i64::from(x), i64::from(y), i64::from(z));
    let pick = Pick {
        x: wide_x,
        y: wide_y,
    };
    let working = match (kind, a, b) {
        (0, _, _) => kinds::bottom(room),
        (1, Some(a), _) => kinds::group(a, wide_x, room),
        (2, Some(a), _) => kinds::shift(a, x, room),
        (3, Some(a), Some(b)) => kinds::alter(a, b, wide_x, wide_y, wide_z, room),
        (4, Some(a), Some(b)) => kinds::combine(a, b, room),
        (5, Some(a), Some(b)) => kinds::anchor(a, b, room),
        (6, Some(a), Some(b)) => kinds::select_down(a, b, pick, room),
        (7, Some(a), Some(b)) => kinds::select_up(a, b, room),
        (8, Some(a), Some(b)) => kinds::select_by_meeting(a, b, pick, room),
        (9, Some(a), Some(b)) => kinds::sets(a, b, Sets::Union, room),
        (10, Some(a), Some(b)) => kinds::sets(a, b, Sets::Intersection, room),
        (11, Some(a), Some(b)) => kinds::sets(a, b, Sets::Difference, room),
        (12, Some(a), _) => kinds::renumber(a, wide_x, room),
        _ => unreachable!("every kind has the operands named"),
    };
    let Working { period, distance } = working?;

    let cells = &room[..period];
    let slots = survey(cells, distance)?;
    let times = times_repeated(cells, distance, slots);
    Ok(Stored {
        start: rows.len(),
        period: period / times as usize,
        distance: distance / times,
        slots: slots / times,
        working_period: period,
    })
}

pub(crate) fn has_two_operands(kind: i32) -> bool {
    (3..=11).contains(&kind)
}

/// Whether x, y and z are within the kind's limits and all numbers that it
/// doesn't name are 0.
fn numbers_allowed(entry: &[i32]) -> bool {
    let &[kind, first, second, x, y, z] = entry else {
        return false;
    };
    let unnamed_operands_zero =
        (kind != 0 || first == 0) && (has_two_operands(kind) || second == 0);
    let million = -1_000_000..=1_000_000;
    let label = -LABEL_LIMIT..=LABEL_LIMIT;
    let numbers_allowed = match kind {
        1 => (1..=1_000_000).contains(&x) && y == 0 && z == 0,
        2 | 12 => label.contains(&x) && y == 0 && z == 0,
        3 => (1..=1_000_000).contains(&x) && (1..=x).contains(&y) && million.contains(&z),
        6 | 8 => x != 0 && million.contains(&x) && (1..=1_000_000).contains(&y) && z == 0,
        _ => x == 0 && y == 0 && z == 0,
    };
    unnamed_operands_zero && numbers_allowed
}

#[cfg(test)]
mod tests;
