//! Document 01's slots worked by hand, and readings where others would answer
//! differently.

use super::*;

const NONE: i32 = EMPTY;

/// Period, distance and cells of each entry, or the refusal.
type Rows = Vec<(u32, u32, Vec<i32>)>;

fn converted(table: &[[i32; 6]], cells: usize) -> Result<Rows, (u32, u32)> {
    let numbers = HEADING_NUMBERS * table.len();
    let mut headings = vec![77; numbers + 5];
    let mut pool = vec![77; cells];
    let answer = convert(table.as_flattened(), &mut headings, &mut pool);
    if answer.is_err() {
        assert!(headings.iter().all(|&number| number == 0));
        assert!(pool.iter().all(|&cell| cell == EMPTY));
    }
    answer?;
    let mut rows = Vec::new();
    let mut used = 0;
    for heading in headings[..numbers].chunks_exact(HEADING_NUMBERS) {
        assert_eq!(heading[0] as usize, used);
        let end = used + heading[1] as usize;
        rows.push((heading[1], heading[2], pool[used..end].to_vec()));
        used = end;
    }
    assert!(headings[numbers..].iter().all(|&number| number == 0));
    assert!(pool[used..].iter().all(|&cell| cell == EMPTY));
    Ok(rows)
}

/// The row of the last entry.
fn last(table: &[[i32; 6]]) -> Result<(u32, u32, Vec<i32>), (u32, u32)> {
    Ok(converted(table, 1000)?
        .pop()
        .expect("as many rows as entries"))
}

/// The refusal's number; it stands at the last entry.
fn refused(table: &[[i32; 6]]) -> u32 {
    let (number, entry) = last(table).expect_err("a refusal");
    assert_eq!(entry as usize, table.len() - 1);
    number
}

const BOTTOM: [i32; 6] = [0, 0, 0, 0, 0, 0];
/// Entry 1 over bottom: the weeks W.
const W: [i32; 6] = [1, 0, 0, 7, 0, 0];
/// Entry 2 over these two: the working days B.
const B: [i32; 6] = [6, 0, 1, 1, 5, 0];
/// Entry 3 over these three: the working days numbered through, C.
const C: [i32; 6] = [12, 2, 0, 1, 0, 0];
const PAIRS: [i32; 6] = [1, 0, 0, 2, 0, 0];

#[test]
fn slot_1_weeks() {
    assert_eq!(last(&[BOTTOM, W]), Ok((7, 1, vec![0, 1, 1, 1, 1, 1, 1])));
}

#[test]
fn slot_2_working_days() {
    assert_eq!(
        last(&[BOTTOM, W, B]),
        Ok((7, 7, vec![NONE, 1, 2, 3, 4, 5, NONE]))
    );
}

#[test]
fn slot_3_renumbered() {
    assert_eq!(
        last(&[BOTTOM, W, B, C]),
        Ok((7, 5, vec![NONE, 1, 2, 3, 4, 5, NONE]))
    );
}

#[test]
fn slot_4_renumbered_at_6() {
    let at_6 = [12, 2, 0, 6, 0, 0];
    assert_eq!(
        last(&[BOTTOM, W, B, at_6]),
        Ok((7, 5, vec![NONE, -4, -3, -2, -1, 0, NONE]))
    );
}

#[test]
fn slot_5_working_weeks() {
    let of_c = [1, 3, 0, 5, 0, 0];
    let of_b = [1, 2, 0, 5, 0, 0];
    assert_eq!(
        last(&[BOTTOM, W, B, C, of_c]),
        Ok((7, 1, vec![NONE, 1, 1, 1, 1, 1, NONE]))
    );
    assert_eq!(refused(&[BOTTOM, W, B, C, of_b]), 7);
}

#[test]
fn slot_6_groups_of_three() {
    let cells = vec![
        NONE, 1, 1, 1, 2, 2, NONE, NONE, 2, 3, 3, 3, 4, NONE, NONE, 4, 4, 5, 5, 5, NONE,
    ];
    assert_eq!(
        last(&[BOTTOM, W, B, C, [1, 3, 0, 3, 0, 0]]),
        Ok((21, 5, cells))
    );
}

#[test]
fn slot_7_odd_and_even_days() {
    // Pairs are days 2i − 1 and 2i.
    let odd = [6, 0, 1, 1, 1, 0];
    let even = [6, 0, 1, 2, 1, 0];
    let union = [9, 2, 3, 0, 0, 0];
    let rows = converted(&[BOTTOM, PAIRS, odd, even, union], 20).unwrap();
    assert_eq!(rows[2], (2, 2, vec![NONE, 1]));
    assert_eq!(rows[3], (2, 2, vec![0, NONE]));
    assert_eq!(rows[4], (1, 1, vec![0]));
}

#[test]
fn slot_8_alter() {
    let alter = |z| [3, 0, 1, 3, 2, z];
    assert_eq!(
        last(&[BOTTOM, PAIRS, alter(1)]),
        Ok((7, 3, vec![0, 1, 1, 2, 2, 2, 3]))
    );
    assert_eq!(refused(&[BOTTOM, PAIRS, alter(-2)]), 10);
    assert_eq!(
        last(&[BOTTOM, PAIRS, alter(-1)]),
        Ok((5, 3, vec![0, 1, 1, 2, 3]))
    );
}

#[test]
fn slot_9_combine() {
    let cells = vec![0, 1, 1, 1, 1, 1, 1, NONE, NONE, 2, 2, 2, 2, 2];
    assert_eq!(
        last(&[BOTTOM, W, PAIRS, [4, 1, 2, 0, 0, 0]]),
        Ok((14, 2, cells))
    );
}

#[test]
fn slot_10_anchor() {
    let odd = [6, 0, 1, 1, 1, 0];
    assert_eq!(
        last(&[BOTTOM, PAIRS, odd, [5, 0, 2, 0, 0, 0]]),
        Ok((2, 2, vec![-1, 1]))
    );
}

#[test]
fn slot_11_sets() {
    let days = [BOTTOM, W, B, C];
    let with = |entry| [days[0], days[1], days[2], days[3], entry];
    let cells = vec![0, NONE, NONE, NONE, NONE, NONE, 6];
    assert_eq!(last(&with([11, 0, 2, 0, 0, 0])), Ok((7, 7, cells)));
    assert_eq!(refused(&with([9, 2, 3, 0, 0, 0])), 9);
    assert_eq!(refused(&with([11, 2, 2, 0, 0, 0])), 12);
}

#[test]
fn slot_12_lists() {
    let table = [BOTTOM, W];
    // Two headings, and three numbers that are none.
    let mut headings = [9; 11];
    let mut pool = [9; 10];
    assert_eq!(
        convert(table.as_flattened(), &mut headings, &mut pool),
        Ok(())
    );
    assert_eq!(headings, [0, 1, 1, 1, 1, 7, 1, 1, 0, 0, 0]);
    assert_eq!(pool, [0, 0, 1, 1, 1, 1, 1, 1, NONE, NONE]);
    assert!(converted(&table, 8).is_ok());
    assert_eq!(converted(&table, 7), Err((8, 1)));
}

#[test]
fn example_of_source_000() {
    let table = [
        BOTTOM,
        // Instants 1, 3 and 4 of every four, numbered through.
        [1, 0, 0, 4, 0, 0],
        [6, 0, 1, 1, 1, 0],
        [6, 0, 1, 3, 2, 0],
        [9, 2, 3, 0, 0, 0],
        [12, 4, 0, 1, 0, 0],
        // The fine calendar: slots of one instant and of two, in turn.
        [1, 5, 0, 2, 0, 0],
        [3, 5, 6, 2, 1, -1],
        [2, 7, 0, -11, 0, 0],
        // The coarse one, of two fine slots each.
        [1, 8, 0, 2, 0, 0],
        [3, 8, 9, 3, 2, 1],
    ];
    let rows = converted(&table, 1000).unwrap();
    assert_eq!(rows[5], (4, 3, vec![0, 1, NONE, 2]));
    assert_eq!(rows[8], (4, 2, vec![-11, -10, NONE, -9]));
    assert_eq!(rows[9], (4, 1, vec![-5, -5, NONE, -4]));
    let (period, distance, cells) = &rows[10];
    assert_eq!((*period, *distance), (28, 6));
    // Slot −4 is fine slots −11 to −9, instants −1, 0, 1, 3 and 4.
    assert_eq!(cells[..6], [-4, -4, NONE, -4, -4, -3]);
    assert_eq!(cells[26..], [NONE, 2]);
    assert_eq!(cells[25], 1);
}

// Readings.

#[test]
fn unnamed_operands_are_numbers() {
    assert_eq!(refused(&[[0, 1, 0, 0, 0, 0]]), 6);
    assert_eq!(refused(&[[0, 0, -1, 0, 0, 0]]), 6);
    assert_eq!(refused(&[BOTTOM, [1, 0, 1, 7, 0, 0]]), 6);
    assert_eq!(refused(&[BOTTOM, [2, 0, -5, 7, 0, 0]]), 6);
    assert_eq!(refused(&[BOTTOM, [12, 0, 9, 7, 0, 0]]), 6);
    // A named operand comes first.
    assert_eq!(refused(&[BOTTOM, [1, 1, 5, 0, 0, 0]]), 5);
    assert_eq!(refused(&[BOTTOM, [4, 0, 1, 3, 0, 0]]), 5);
    assert_eq!(refused(&[BOTTOM, [4, -1, 0, 3, 0, 0]]), 5);
}

#[test]
fn kinds_and_limits() {
    assert_eq!(refused(&[[13, 9, 9, 9, 9, 9]]), 4);
    assert_eq!(refused(&[[-1, 0, 0, 0, 0, 0]]), 4);
    for entry in [
        [1, 0, 0, 0, 0, 0],
        [1, 0, 0, 1_000_001, 0, 0],
        [1, 0, 0, -7, 0, 0],
        [1, 0, 0, 7, 1, 0],
        [2, 0, 0, 1_000_000_001, 0, 0],
        [2, 0, 0, i32::MIN, 0, 0],
        [3, 0, 0, 0, 0, 0],
        [3, 0, 0, 2, 0, 0],
        [3, 0, 0, 2, 3, 0],
        [3, 0, 0, 1_000_001, 1, 0],
        [3, 0, 0, 2, 1, 1_000_001],
        [3, 0, 0, 2, 1, -1_000_001],
        [4, 0, 0, 0, 0, 1],
        [5, 0, 0, 0, 1, 0],
        [6, 0, 0, 0, 1, 0],
        [6, 0, 0, 1, 0, 0],
        [6, 0, 0, 1, 1_000_001, 0],
        [6, 0, 0, -1_000_001, 1, 0],
        [8, 0, 0, 1, 1, 1],
        [8, 0, 0, 0, 1, 0],
        [7, 0, 0, 1, 0, 0],
        [9, 0, 0, 1, 0, 0],
        [10, 0, 0, 0, 1, 0],
        [11, 0, 0, 0, 0, 1],
        [12, 0, 0, 0, 1, 0],
        [12, 0, 0, -1_000_000_001, 0, 0],
    ] {
        assert_eq!(refused(&[BOTTOM, entry]), 6, "{entry:?}");
    }
    // The limits themselves.
    assert!(last(&[BOTTOM, [2, 0, 0, 1_000_000_000, 0, 0]]).is_ok());
    assert!(last(&[BOTTOM, [12, 0, 0, 1_000_000_000, 0, 0]]).is_ok());
    assert!(last(&[BOTTOM, [12, 0, 0, -999_999_999, 0, 0]]).is_ok());
    assert_eq!(refused(&[BOTTOM, [12, 0, 0, -1_000_000_000, 0, 0]]), 11);
    assert!(last(&[BOTTOM, [6, 0, 0, -1_000_000, 1_000_000, 0]]).is_ok());
    assert_eq!(
        refused(&[BOTTOM, [3, 0, 0, 1_000_000, 1_000_000, -1_000_000]]),
        10
    );
}

#[test]
fn fullness_comes_before_room() {
    let table = [BOTTOM, W, B, [1, 2, 0, 1_000_000, 0, 0]];
    assert_eq!(converted(&table, 15), Err((7, 3)));
    let table = [BOTTOM, W, B, [5, 2, 0, 0, 0, 0]];
    assert_eq!(converted(&table, 15), Err((7, 3)));
    let table = [BOTTOM, W, B, [3, 0, 2, 1, 1, 1]];
    assert_eq!(converted(&table, 15), Err((7, 3)));
}

#[test]
fn fewer_than_one_fine_slot_comes_before_the_working_period() {
    // x = 999,999 and three coarse slots a turn: only slots with y's residue
    // by 3 are altered.
    let uneven = [3, 0, 1, 3, 2, 1];
    let alter = |y, z| [3, 0, 2, 999_999, y, z];
    for (y, z, number) in [
        (1, -2, 10),
        (2, -2, 8),
        (3, -2, 10),
        (1, -1, 8),
        (2, -3, 10),
    ] {
        assert_eq!(
            refused(&[BOTTOM, PAIRS, uneven, alter(y, z)]),
            number,
            "y {y} z {z}"
        );
    }
    // The span's 8 comes before 10, and 9 too.
    assert_eq!(
        converted(&[BOTTOM, W, [3, 0, 1, 1, 1, -9]], 14),
        Err((8, 2))
    );
    assert_eq!(refused(&[BOTTOM, W, PAIRS, [3, 2, 1, 1, 1, -9]]), 9);
}

#[test]
fn the_three_first_checks() {
    let answer = |table: &[i32], headings: usize, cells: usize| {
        convert(table, &mut vec![5; headings], &mut vec![5; cells])
    };
    assert_eq!(answer(&[], 0, 5_000_000), Err((1, 0)));
    assert_eq!(answer(&[0; 5], 0, 5_000_000), Err((1, 0)));
    assert_eq!(answer(&[0; 7], 0, 5_000_000), Err((1, 0)));
    assert_eq!(answer(&[0; 6 * 65], 400, 100), Err((1, 0)));
    assert_eq!(answer(&[0; 6 * 64], 256, 64), Ok(()));
    assert_eq!(answer(&[0; 6 * 64], 255, 5_000_000), Err((2, 0)));
    assert_eq!(answer(&[0; 6], 3, 1), Err((2, 0)));
    assert_eq!(answer(&[0; 6], 4, 4_194_305), Err((3, 0)));
    assert_eq!(answer(&[0; 6], 4, 4_194_304), Ok(()));
    // No room at all, after 4 to 7.
    assert_eq!(answer(&[0; 6], 4, 0), Err((8, 0)));
    assert_eq!(answer(&[0, 0, 0, 0, 0, 1], 4, 0), Err((6, 0)));
    assert_eq!(answer(&[13, 0, 0, 0, 0, 1], 4, 0), Err((4, 0)));
    assert_eq!(answer(&[1, 0, 0, 0, 0, 1], 4, 0), Err((5, 0)));
}

#[test]
fn one_to_three_numbers_are_no_heading() {
    for left_over in 0..HEADING_NUMBERS {
        let mut headings = vec![9; HEADING_NUMBERS + left_over];
        let mut pool = [9; 8];
        assert_eq!(convert(&BOTTOM, &mut headings, &mut pool), Ok(()));
        assert_eq!(headings[..HEADING_NUMBERS], [0, 1, 1, 1]);
        assert_eq!(headings[HEADING_NUMBERS..], vec![0; left_over]);
        let mut headings = vec![9; HEADING_NUMBERS + left_over];
        let answer = convert([BOTTOM, W].as_flattened(), &mut headings, &mut pool);
        assert_eq!(answer, Err((2, 0)));
        assert_eq!(headings, vec![0; HEADING_NUMBERS + left_over]);
    }
}

#[test]
fn a_heading_has_the_slots_of_the_least_row() {
    let odd = [6, 0, 1, 1, 1, 0];
    let even = [6, 0, 1, 2, 1, 0];
    let union = [9, 2, 3, 0, 0, 0];
    let slots = |table: &[[i32; 6]]| -> Vec<u32> {
        let mut headings = vec![9; HEADING_NUMBERS * table.len()];
        convert(table.as_flattened(), &mut headings, &mut [9; 200]).unwrap();
        let headings = headings.chunks_exact(HEADING_NUMBERS);
        headings.map(|heading| heading[3]).collect()
    };
    // The union's working row has two slots, its least row one.
    assert_eq!(slots(&[BOTTOM, PAIRS, odd, even, union]), [1, 1, 1, 1, 1]);
    // B's labels rise by 7, and 5 of 7 are there.
    assert_eq!(
        slots(&[BOTTOM, W, B, C, [1, 3, 0, 3, 0, 0]]),
        [1, 1, 5, 5, 5]
    );
}

#[test]
fn room_is_less_by_least_periods_only() {
    // Grouping the even days' numbers by one works over 2 cells each time.
    let table = [
        BOTTOM,
        PAIRS,
        [6, 0, 1, 1, 1, 0],
        [6, 0, 1, 2, 1, 0],
        [9, 2, 3, 0, 0, 0],
        PAIRS,
    ];
    // 1 + 2 + 2 + 2 + (2 for the union, 1 kept) + 2.
    assert!(converted(&table, 10).is_ok());
    assert_eq!(converted(&table, 9), Err((8, 5)));
    assert_eq!(converted(&table[..5], 8), Err((8, 4)));
    assert!(converted(&table[..5], 9).is_ok());
}

#[test]
fn the_span_counts_for_one_operand_too() {
    for entry in [[2, 1, 0, 1, 0, 0], [12, 1, 0, 1, 0, 0], [1, 1, 0, 1, 0, 0]] {
        assert_eq!(converted(&[BOTTOM, W, entry], 14), Err((8, 2)));
        assert!(converted(&[BOTTOM, W, entry], 15).is_ok());
    }
}

#[test]
fn later_entries_are_not_looked_at() {
    assert_eq!(
        converted(&[BOTTOM, [1, 0, 0, 0, 0, 0], [99, 0, 0, 0, 0, 0]], 9),
        Err((6, 1))
    );
}

#[test]
fn rises_count_for_alignment() {
    // Bottom and C agree on all cells of a span.
    assert_eq!(refused(&[BOTTOM, W, B, C, [5, 0, 3, 0, 0, 0]]), 9);
    assert!(last(&[BOTTOM, W, B, C, [5, 0, 2, 0, 0, 0]]).is_ok());
    for kind in 9..=11 {
        assert_eq!(refused(&[BOTTOM, W, B, C, [kind, 2, 3, 0, 0, 0]]), 9);
        assert_eq!(refused(&[BOTTOM, W, B, C, [kind, 0, 3, 0, 0, 0]]), 9);
    }
}

#[test]
fn part_of_a_slot_is_not_aligned() {
    let weekdays = [4, 1, 2, 0, 0, 0];
    for kind in 9..=11 {
        assert_eq!(refused(&[BOTTOM, W, B, weekdays, [kind, 1, 3, 0, 0, 0]]), 9);
        assert_eq!(refused(&[BOTTOM, W, B, weekdays, [kind, 3, 1, 0, 0, 0]]), 9);
    }
    assert_eq!(refused(&[BOTTOM, W, B, weekdays, [5, 1, 3, 0, 0, 0]]), 9);
}

#[test]
fn labels_together_never_fall() {
    let odd = [6, 0, 1, 1, 1, 0];
    let even = [6, 0, 1, 2, 1, 0];
    // [. 1] and [2 .]: nothing shared, but 2 stands before 1.
    let table = [
        BOTTOM,
        PAIRS,
        odd,
        even,
        [2, 3, 0, 2, 0, 0],
        [9, 2, 4, 0, 0, 0],
    ];
    assert_eq!(
        converted(&table[..5], 50).unwrap()[4],
        (2, 2, vec![2, NONE])
    );
    assert_eq!(refused(&table), 9);
    // At the turn: [1 .] and [. 4] with distance 2.
    let table = [
        BOTTOM,
        PAIRS,
        odd,
        even,
        [2, 2, 0, 3, 0, 0],
        [10, 3, 4, 0, 0, 0],
    ];
    assert_eq!(refused(&table), 9);
}

#[test]
fn eleven_looks_at_the_working_row() {
    let table = [
        BOTTOM,
        [2, 0, 0, 1_000_000_000, 0, 0],
        [1, 1, 0, 2, 0, 0],
        [8, 1, 2, 1, 2, 0],
    ];
    assert_eq!(refused(&table), 11);
    assert_eq!(
        refused(&[BOTTOM, [2, 0, 0, 1_000_000_000, 0, 0], [2, 1, 0, 1, 0, 0]]),
        11
    );
    assert_eq!(
        refused(&[
            BOTTOM,
            [2, 0, 0, 1_000_000_000, 0, 0],
            [12, 1, 0, -1_000_000_000, 0, 0]
        ]),
        11
    );
}

#[test]
fn picks_from_the_end() {
    let pick = |x, y| last(&[BOTTOM, W, [6, 0, 1, x, y, 0]]).map(|row| row.2);
    assert_eq!(pick(-1, 1), Ok(vec![0, NONE, NONE, NONE, NONE, NONE, NONE]));
    assert_eq!(pick(-8, 2), Ok(vec![NONE, 1, NONE, NONE, NONE, NONE, NONE]));
    assert_eq!(pick(-8, 1), Err((12, 2)));
    assert_eq!(pick(8, 1), Err((12, 2)));
    assert_eq!(pick(-7, 1_000_000), Ok(vec![0]));
}

#[test]
fn a_selection_may_be_full() {
    assert_eq!(
        last(&[BOTTOM, W, [6, 0, 1, 1, 7, 0], [1, 2, 0, 2, 0, 0]]),
        Ok((2, 1, vec![0, 1]))
    );
}

#[test]
fn inside_is_about_every_instant() {
    // A week isn't inside its weekdays, nor does it meet them as a whole.
    let weekdays = [4, 1, 2, 0, 0, 0];
    let table = |entry| [BOTTOM, W, B, weekdays, entry];
    assert_eq!(refused(&table([6, 1, 3, 1, 1, 0])), 12);
    assert_eq!(
        last(&table([7, 1, 3, 0, 0, 0])),
        Ok((7, 1, vec![0, 1, 1, 1, 1, 1, 1]))
    );
    assert_eq!(refused(&table([7, 3, 1, 0, 0, 0])), 12);
    assert_eq!(
        last(&table([8, 1, 3, 1, 1, 0])),
        Ok((7, 1, vec![0, 1, 1, 1, 1, 1, 1]))
    );
}

#[test]
fn a_slot_met_by_several() {
    // Weeks met by pairs: the week's last day is in a pair with the next
    // week's first, in every second week.
    let meet = |x, y| last(&[BOTTOM, W, PAIRS, [8, 1, 2, x, y, 0]]);
    assert_eq!(meet(1, 1), Ok((7, 1, vec![0, 1, 1, 1, 1, 1, 1])));
    // Second of two: weeks whose first day is the second of a pair.
    let cells = vec![
        0, NONE, NONE, NONE, NONE, NONE, NONE, NONE, 2, 2, 2, 2, 2, 2,
    ];
    assert_eq!(meet(2, 1).map(|row| (row.0, row.1)), Ok((14, 2)));
    assert_eq!(meet(2, 1).map(|row| row.2), Ok(cells));
}

#[test]
fn one_slot_meets_a_slot_and_the_one_a_turn_later() {
    // Pairs shifted by one instant against pairs: [0 1] against [0 0].
    let table = [BOTTOM, PAIRS, [2, 0, 0, 1, 0, 0], [1, 2, 0, 2, 0, 0]];
    let rows = converted(&table, 50).unwrap();
    assert_eq!(rows[1], (2, 1, vec![0, 1]));
    assert_eq!(rows[3], (2, 1, vec![1, 1]));
    let meet = |x| last(&[table[0], table[1], table[2], table[3], [8, 1, 3, x, 1, 0]]);
    assert_eq!(meet(1), Ok((2, 1, vec![0, 1])));
    assert_eq!(meet(2), Ok((2, 1, vec![0, 1])));
    assert_eq!(meet(3), Err((12, 4)));
}

#[test]
fn renumber_far_from_the_row() {
    let far = [12, 2, 0, 700, 0, 0];
    assert_eq!(
        last(&[BOTTOM, W, B, far]),
        Ok((7, 5, vec![NONE, -499, -498, -497, -496, -495, NONE]))
    );
    let far = [12, 2, 0, -699, 0, 0];
    assert_eq!(
        last(&[BOTTOM, W, B, far]),
        Ok((7, 5, vec![NONE, 501, 502, 503, 504, 505, NONE]))
    );
}

#[test]
fn alter_far_from_the_fine_slots() {
    // Coarse labels far out: the altered slot near instant 0 lies further out
    // still, and one fine slot a coarse slot puts it past all limits.
    let far = [2, 1, 0, 900_000_000, 0, 0];
    let table = |alter| [BOTTOM, W, far, alter];
    let row = last(&table([3, 0, 2, 1, 1, 7])).unwrap();
    assert_eq!((row.0, row.1), (14, 1));
    assert_eq!(row.2[0], 450_000_000);
    assert_eq!(refused(&table([3, 0, 2, 1, 1, -6])), 11);
    assert_eq!(last(&table([3, 0, 2, 1, 1, -7])), Err((10, 3)));
}
