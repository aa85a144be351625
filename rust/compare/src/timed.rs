//! Tables that are timed.

use crate::second::{self, CELL_LIMIT, EMPTY, ENTRY_NUMBERS, HEADING_NUMBERS};

pub type Entry = [i32; 6];

pub const BOTTOM: Entry = [0; 6];

pub fn group(a: i32, x: i32) -> Entry {
    [1, a, 0, x, 0, 0]
}

/// A calendar over bottom of period p, made from the given group of g by
/// making its slots of g instants longer now and then.
pub fn uneven(group: i32, g: i32, p: i32) -> Entry {
    [3, 0, group, p / g, 1, p % g]
}

/// All days but the first of each slot of b.
pub fn but_first(b: i32) -> Entry {
    [6, 0, b, 2, 1_000_000, 0]
}

/// How many numbers the headings of a table have.
pub fn heading_numbers(table: &[i32]) -> usize {
    table.len() / ENTRY_NUMBERS * HEADING_NUMBERS
}

/// The shortest pool in which the table's answer is that of the longest.
pub fn least_pool(table: &[i32]) -> usize {
    let mut headings = vec![0; heading_numbers(table)];
    let mut pool = vec![EMPTY; CELL_LIMIT];
    let answer = second::convert(table, &mut headings, &mut pool);
    let (mut low, mut high) = (0, CELL_LIMIT);
    if answer.is_err() {
        return high;
    }
    while low < high {
        let middle = (low + high) / 2;
        if second::convert(table, &mut headings, &mut pool[..middle]) == answer {
            high = middle;
        } else {
            low = middle + 1;
        }
    }
    high
}

/// Months and years by grouping 31 days and altering, as in source 000, for up
/// to 100 years.
pub fn civil(by_the_hour: bool, years: i32) -> Vec<Entry> {
    let mut entries = vec![BOTTOM];
    if by_the_hour {
        entries.push(group(0, 24));
    }
    let day = entries.len() as i32 - 1;
    entries.push(group(day, 31));
    let mut alter = |x, y, z| {
        let months = entries.len() as i32 - 1;
        entries.push([3, day, months, x, y, z]);
    };
    alter(12, 2, -3);
    for month in [4, 6, 9, 11] {
        alter(12, month, -1);
    }
    // Year 1 is one after a multiple of 400.
    for (cycle, z) in [(4, 1), (100, -1)] {
        if years >= cycle {
            alter(12 * cycle, 12 * cycle - 10, z);
        }
    }
    let months = entries.len() as i32 - 1;
    entries.push(group(months, 12));
    entries
}

/// A table for each kind. With the factors 1019 and 1021 the last working row
/// has about a million cells, with 2039 and 2053 about four; kinds marked * keep
/// a long operand in the pool, so that theirs is about half as long.
pub fn each_kind(
    p: i32,
    q: i32,
    half_p: i32,
    half_q: i32,
    altered: i32,
) -> Vec<(&'static str, Vec<Entry>)> {
    // Entries 2 and 4 have periods p and q, and short slots.
    let short = [
        BOTTOM,
        group(0, 7),
        uneven(1, 7, p),
        group(0, 3),
        uneven(3, 3, q),
    ];
    let with = |entry: Entry| [&short[..], &[entry]].concat();
    // Entry 3 is long and full.
    let long = [BOTTOM, group(0, 7), uneven(1, 7, half_p), group(2, half_q)];
    let with_long = |entry: Entry| [&long[..], &[entry]].concat();
    // Entries 2 and 4 are days of one stock.
    let kin = |p, q| [BOTTOM, group(0, p), but_first(1), group(0, q), but_first(3)];
    let with_kin = |entry: Entry| [&kin(p, q)[..], &[entry]].concat();
    vec![
        ("0 bottom", vec![BOTTOM]),
        ("1 group", [&short[..3], &[group(2, q)]].concat()),
        ("2 shift *, with its operand", with_long([2, 3, 0, 5, 0, 0])),
        (
            "3 alter",
            vec![BOTTOM, group(0, 7), [3, 0, 1, altered, 2, 4]],
        ),
        ("4 combine", with([4, 2, 4, 0, 0, 0])),
        (
            "5 anchor *, with its operand",
            [
                &kin(half_p, half_q)[..],
                &[[10, 2, 4, 0, 0, 0], [5, 0, 5, 0, 0, 0]],
            ]
            .concat(),
        ),
        ("6 select-down", with([6, 4, 2, 1, 1, 0])),
        ("7 select-up", with([7, 2, 4, 0, 0, 0])),
        ("8 select-by-meeting", with([8, 4, 2, -1, 1, 0])),
        ("9 union", with_kin([9, 2, 4, 0, 0, 0])),
        ("10 intersection", with_kin([10, 2, 4, 0, 0, 0])),
        ("11 difference", with_kin([11, 2, 4, 0, 0, 0])),
        (
            "12 renumber *, with its operand",
            with_long([12, 3, 0, 5, 0, 0]),
        ),
    ]
}
