//! Tables and rows at the limits: the proved core against the second
//! implementation, and both against what the limits say.

use jogipahn_compare::core;
use jogipahn_compare::second::questions::{self, Allowance, Row};
use jogipahn_compare::second::{self, EMPTY, HEADING_NUMBERS};

/// The longest pool and the longest row.
const CELLS: usize = 4_194_304;

const BOTTOM: [i32; 6] = [0; 6];

fn group(first: i32, x: i32) -> [i32; 6] {
    [1, first, 0, x, 0, 0]
}

/// An answer, and the headings and cells that are left beside it.
type Left = (Result<(), (u32, u32)>, Vec<u32>, Vec<i32>);

/// Converts by both into dirty lists; what both leave.
fn converted(entries: &[[i32; 6]], pool: usize) -> Left {
    let table = entries.concat();
    let mut headings = vec![7; HEADING_NUMBERS * entries.len()];
    let mut cells = vec![7; pool];
    let answer = core::convert(&table, &mut headings, &mut cells);
    let mut expected_headings = vec![8; headings.len()];
    let mut expected_cells = vec![8; pool];
    let expected = second::convert(&table, &mut expected_headings, &mut expected_cells);
    assert_eq!(answer, expected, "{entries:?}");
    assert_eq!(headings, expected_headings, "{entries:?}");
    assert!(cells == expected_cells, "{entries:?}");
    (answer, headings, cells)
}

fn heading(headings: &[u32], entry: usize) -> &[u32] {
    &headings[HEADING_NUMBERS * entry..][..HEADING_NUMBERS]
}

#[test]
fn a_grouped_row_fills_the_pool() {
    // 1 + 2,049 + 2,049 * 2,046 cells are all there are.
    let table = [BOTTOM, group(0, 2049), group(1, 2046)];
    let (answer, headings, pool) = converted(&table, CELLS);
    assert_eq!(answer, Ok(()));
    assert_eq!(heading(&headings, 2), [2050, 4_192_254, 1, 1]);
    assert_eq!(pool[CELLS - 1], 1);
    assert_eq!(converted(&table, CELLS - 1).0, Err((8, 2)));
}

#[test]
fn an_altered_row_fills_the_pool() {
    // 2,000 times 2,049 days, and once 94,254 more.
    let table = [BOTTOM, group(0, 2049), [3, 0, 1, 2000, 1, 94_254]];
    let (answer, headings, _) = converted(&table, CELLS);
    assert_eq!(answer, Ok(()));
    assert_eq!(heading(&headings, 2), [2050, 4_192_254, 2000, 2000]);
    assert_eq!(converted(&table, CELLS - 1).0, Err((8, 2)));
}

#[test]
fn each_kind_fills_the_pool() {
    // The row of entry 2 has 2,049 * 1,023 cells, and as many are left behind it.
    let long = [BOTTOM, group(0, 2049), group(1, 1023)];
    let kinds = [
        [2, 2, 0, 5, 0, 0],
        [4, 2, 2, 0, 0, 0],
        [5, 2, 2, 0, 0, 0],
        [6, 2, 2, 1, 1, 0],
        [7, 2, 2, 0, 0, 0],
        [8, 2, 2, 1, 1, 0],
        [9, 2, 2, 0, 0, 0],
        [10, 2, 2, 0, 0, 0],
        [12, 2, 0, 1, 0, 0],
    ];
    for kind in kinds {
        let table = [&long[..], &[kind]].concat();
        let (answer, headings, pool) = converted(&table, CELLS);
        assert_eq!(answer, Ok(()), "{kind:?}");
        let expected = [2_098_177, 2_096_127, 1, 1];
        assert_eq!(heading(&headings, 3), expected, "{kind:?}");
        assert!(pool[CELLS - 1] != EMPTY, "{kind:?}");
        assert_eq!(converted(&table, CELLS - 1).0, Err((8, 3)), "{kind:?}");
    }
    // Nothing is left of a calendar less itself.
    let table = [&long[..], &[[11, 2, 2, 0, 0, 0]]].concat();
    assert_eq!(converted(&table, CELLS).0, Err((12, 3)));
    assert_eq!(converted(&table, CELLS - 1).0, Err((8, 3)));
}

#[test]
fn entries_and_pool_end_at_their_limits() {
    assert_eq!(converted(&[BOTTOM; 64], 64).0, Ok(()));
    assert_eq!(converted(&[BOTTOM; 64], 63).0, Err((8, 63)));
    assert_eq!(converted(&[BOTTOM; 65], 65).0, Err((1, 0)));
    let (answer, _, pool) = converted(&[BOTTOM], CELLS);
    assert_eq!(answer, Ok(()));
    assert!(pool[0] == 0 && pool[1..].iter().all(|&cell| cell == EMPTY));
    assert_eq!(converted(&[BOTTOM], CELLS + 1).0, Err((3, 0)));
}

#[test]
fn a_product_past_64_bits_is_too_long() {
    // Entry 2 has a period of 1,398,001 and a distance of 699,000; entry 3 is
    // grouped from it by 699.
    let (x, z) = (997_799, 990_859);
    let fine = [3, 0, 1, 699_000, 1, 1];
    let table = [BOTTOM, group(0, 2), fine, group(2, 699), [3, 2, 3, x, 1, z]];
    let (period, distance) = (1_398_001_u128, 699_000_u128);
    // n = 1,000 x, D = 699,000 x + 1,000 z, and gcd(D, N) = 1,000.
    let fine_slots = 699_000 * x as u128 + 1_000 * z as u128;
    let product = period * 699 * fine_slots;
    let room = CELLS as u128 - 3 - 2 * period;
    assert!(product >> 64 > 0);
    // Wrapped, it would fit.
    assert!(u128::from(product as u64) / distance <= room);
    assert_eq!(converted(&table[..4], CELLS).0, Ok(()));
    assert_eq!(converted(&table, CELLS).0, Err((8, 4)));
}

/// A row of that many cells whose one slot is the whole row.
fn one_slot(cells: &[i32]) -> Row<'_> {
    Row {
        cells,
        period: cells.len() as i64,
        distance: 1,
    }
}

#[test]
fn questions_take_the_longest_row() {
    let cells = vec![0; CELLS + 1];
    let (long, longer) = (one_slot(&cells[1..]), one_slot(&cells));
    let rule = Allowance::Share(1.0);
    for (row, passes) in [(long, true), (longer, false)] {
        assert_eq!(core::up_instant(row, -1), questions::up_instant(row, -1));
        assert_eq!(
            core::up_granule(row, row, 9),
            questions::up_granule(row, row, 9)
        );
        assert_eq!(core::figures(row, 1), questions::figures(row, 1));
        assert_eq!(core::figures(row, 2), Err(13));
        assert_eq!(
            core::may_be_late(row, 9, 1_048_576, rule),
            questions::may_be_late(row, 9, 1_048_576, rule)
        );
        assert_eq!(
            core::may_be_late(row, 9, 1_048_577, rule),
            questions::may_be_late(row, 9, 1_048_577, rule)
        );
        assert_eq!(
            core::up_instant(row, -1),
            if passes {
                Ok(Some((-1, CELLS as u64)))
            } else {
                Err(13)
            }
        );
    }
    // The range of lateness has not moved.
    assert_eq!(core::may_be_late(long, 9, 1_048_576, rule), Ok(true));
    assert_eq!(core::may_be_late(long, 9, 1_048_577, rule), Err(14));
    // Slot 1,000,000,000 begins past 4 * 10^15.
    let days = Row {
        cells: &[0],
        period: 1,
        distance: 1,
    };
    let mut parts = vec![7; CELLS + 1];
    assert_eq!(core::down(long, days, 1_000_000_000, &mut parts), Ok(CELLS));
    assert_eq!(parts[0], 4_194_304_000_000_000);
    assert_eq!(parts[CELLS], 0);
}
