//! Refusals of union and intersection don't depend on the operands' order
//! (document 02): with the same room both are refused under the same number, or
//! neither is.

mod sides;

use std::collections::BTreeMap;

use jogipahn_compare::random::Random;
use jogipahn_compare::second::{ENTRY_LIMIT, LABEL_LIMIT};
use jogipahn_compare::tables::answered;
use sides::Side;

const UNION: i32 = 9;
const INTERSECTION: i32 = 10;

/// Cells in which the operands are answered.
const CELLS: usize = 500;

/// How often both were refused under a number, by kind; 0 stands for answered.
type Counts = BTreeMap<(i32, u32), u32>;

/// Converts the operands' table with a and b joined behind it, and with b and a.
fn swap(operands: &[i32], a: i32, b: i32, pool: usize, counts: &mut Counts) {
    for kind in [UNION, INTERSECTION] {
        let one = Side::of(operands, 0).entry(kind, a, b);
        let other = Side::of(operands, 0).entry(kind, b, a);
        let (row, swapped) = (one.row(pool), other.row(pool));
        assert_eq!(row, swapped, "{:?} in {pool} cells", one.table);
        let number = match row {
            Ok(_) => 0,
            // Operands that don't fit themselves say nothing.
            Err((_, entry)) if entry < one.result as u32 => continue,
            Err((number, _)) => number,
        };
        *counts.entry((kind, number)).or_default() += 1;
    }
}

#[test]
fn operands_change_places() {
    let mut counts = Counts::new();
    for seed in 0..10_000 {
        let mut random = Random::new(0x5A4B_0000 + seed);
        let operands = answered(&mut random, CELLS, false);
        let entries = operands.entries();
        if entries + 1 > ENTRY_LIMIT {
            continue;
        }
        let a = random.below(entries);
        let kin: Vec<usize> = (0..entries)
            .filter(|&other| operands.are_kin(a, other))
            .collect();
        let b = match random.below(3) {
            0 => random.below(entries),
            _ => random.choose(&kin),
        };
        let pool = CELLS + random.choose(&[0, 20, 200, 20_000]);
        swap(&operands.table, a as i32, b as i32, pool, &mut counts);
        let (table, pool) = far_days(&mut random);
        swap(&table, 3, 5, pool, &mut counts);
    }
    for ((kind, number), count) in &counts {
        match number {
            0 => println!("kind {kind}: answered both ways {count} times"),
            _ => println!("kind {kind}: refused with {number} both ways {count} times"),
        }
    }
    // A union of calendars always has a label.
    for (kind, number) in [(UNION, 0), (UNION, 8), (UNION, 9), (UNION, 11)] {
        assert!(counts[&(kind, number)] >= 100, "{kind}, {number}");
    }
    for number in [0, 8, 9, 11, 12] {
        assert!(counts[&(INTERSECTION, number)] >= 100, "{number}");
    }
    assert!(!counts.contains_key(&(UNION, 12)));
}

/// Days with labels near the limit, and two selections of them, entries 3 and
/// 5, whose turns are longer together.
fn far_days(random: &mut Random) -> (Vec<i32>, usize) {
    let x = LABEL_LIMIT - random.range(0, 30) as i32;
    let mut side = Side::of(&[], 0)
        .entry(0, 0, 0)
        .with(2, 0, 0, [random.choose(&[x, -x]), 0, 0]);
    for groups in [2, 4] {
        let length = random.range(2, 9) as i32;
        let pick = random.choose(&[-2, -1, 1, 2]);
        side = side
            .with(1, 0, 0, [length, 0, 0])
            .with(6, 1, groups, [pick, 1, 0]);
    }
    (side.table, random.choose(&[40, 1000]))
}
