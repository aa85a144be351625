//! The check of finished headings and rows: the table is converted entry by
//! entry into a pool of its own, and each entry compared at once.

use super::conversion::{admitted, convert_entry, Stored};
use super::{EMPTY, ENTRY_NUMBERS, HEADING_NUMBERS};

/// What the check of finished lists comes to.
#[derive(Clone, Copy, Debug, PartialEq, Eq)]
pub enum Verdict {
    /// Conversion would leave just these lists.
    Accepted,
    /// Conversion refuses, under this number and at this entry; headings and
    /// rows before it are right.
    Refused(u32, u32),
    /// The first entry whose heading or row isn't right, or the number of
    /// entries where only the rest isn't.
    Wrong(u32),
}

/// Checks headings and rows that somebody else made for the table.
pub fn check(table: &[i32], headings: &[u32], pool: &[i32]) -> Verdict {
    let entries = match admitted(table.len(), headings.len(), pool.len()) {
        Ok(entries) => entries,
        Err(number) => return Verdict::Refused(number, 0),
    };
    let mut own = vec![EMPTY; pool.len()];
    let mut stored: Vec<Stored> = Vec::with_capacity(entries);
    let mut used = 0;
    let supplied = headings.chunks_exact(HEADING_NUMBERS);
    for (entry, heading) in table.chunks_exact(ENTRY_NUMBERS).zip(supplied) {
        let number = stored.len() as u32;
        let (rows, room) = own.split_at_mut(used);
        let row = match convert_entry(entry, &stored, rows, room) {
            Ok(row) => row,
            Err(refusal) => return Verdict::Refused(refusal, number),
        };
        let cells = &room[..row.period];
        if row.heading() != heading || cells != &pool[used..used + row.period] {
            return Verdict::Wrong(number);
        }
        used += row.period;
        stored.push(row);
    }
    let behind = &headings[HEADING_NUMBERS * entries..];
    if behind.iter().any(|&number| number != 0) || pool[used..].iter().any(|&cell| cell != EMPTY) {
        return Verdict::Wrong(entries as u32);
    }
    Verdict::Accepted
}

#[cfg(test)]
mod tests {
    use super::*;

    /// Case 12 of document 01: days and weeks.
    const TABLE: [i32; 12] = [0, 0, 0, 0, 0, 0, 1, 0, 0, 7, 0, 0];
    const HEADINGS: [u32; 8] = [0, 1, 1, 1, 1, 7, 1, 1];
    const POOL: [i32; 10] = [0, 0, 1, 1, 1, 1, 1, 1, EMPTY, EMPTY];

    fn with<T: Copy, const N: usize>(mut list: [T; N], place: usize, value: T) -> [T; N] {
        list[place] = value;
        list
    }

    #[test]
    fn finished_lists() {
        assert_eq!(check(&TABLE, &HEADINGS, &POOL), Verdict::Accepted);
        assert_eq!(check(&TABLE, &HEADINGS, &POOL[..8]), Verdict::Accepted);
        let longer = [&HEADINGS[..], &[0, 0, 0]].concat();
        assert_eq!(check(&TABLE, &longer, &POOL), Verdict::Accepted);
    }

    #[test]
    fn wrong_entries() {
        for (place, value, entry) in [
            (0, 1, 0),
            (3, 2, 0),
            (4, 2, 1),
            (5, 6, 1),
            (6, 2, 1),
            (7, 2, 1),
        ] {
            let verdict = check(&TABLE, &with(HEADINGS, place, value), &POOL);
            assert_eq!(verdict, Verdict::Wrong(entry), "heading number {place}");
        }
        for (place, value, entry) in [(0, 1, 0), (1, EMPTY, 1), (7, 2, 1), (8, 2, 2), (9, 0, 2)] {
            let verdict = check(&TABLE, &HEADINGS, &with(POOL, place, value));
            assert_eq!(verdict, Verdict::Wrong(entry), "cell {place}");
        }
        let longer = [&HEADINGS[..], &[0, 0, 1]].concat();
        assert_eq!(check(&TABLE, &longer, &POOL), Verdict::Wrong(2));
    }

    #[test]
    fn refusals() {
        assert_eq!(
            check(&TABLE[..11], &HEADINGS, &POOL),
            Verdict::Refused(1, 0)
        );
        assert_eq!(check(&TABLE, &HEADINGS[..7], &POOL), Verdict::Refused(2, 0));
        let unknown = with(TABLE, 6, 13);
        assert_eq!(check(&unknown, &HEADINGS, &POOL), Verdict::Refused(4, 1));
        // A refusal comes before what is wrong at the same entry, and what is
        // wrong at an earlier one before a refusal.
        let later = with(HEADINGS, 4, 2);
        assert_eq!(check(&TABLE, &later, &POOL[..7]), Verdict::Refused(8, 1));
        let earlier = with(HEADINGS, 3, 2);
        assert_eq!(check(&TABLE, &earlier, &POOL[..7]), Verdict::Wrong(0));
    }
}
