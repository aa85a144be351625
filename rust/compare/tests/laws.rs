//! The laws of documents 01 and 02, on random operands, where both sides are
//! answered.

mod sides;

use std::collections::{BTreeMap, BTreeSet};

use jogipahn::Row;
use jogipahn_compare::random::Random;
use jogipahn_compare::second::{EMPTY, ENTRY_LIMIT};
use jogipahn_compare::tables::{answered, lcm, Answered};
use sides::Side;

/// Cells that are lent for a side.
const POOL: usize = 20_000;

/// 17 of document 01 and three of document 02.
const LAWS: usize = 20;

#[derive(Default)]
struct Counts {
    /// How often each law was found to hold, and how often a side was refused.
    laws: BTreeMap<&'static str, (u32, u32)>,
    /// How often select-up and combine of a and b were other than a.
    changed: [u32; 2],
}

impl Counts {
    /// The rows of both sides are equal.
    fn compare(&mut self, law: &'static str, left: Side, right: Side) {
        self.holds(law, &left, &right, |first, second| first == second);
    }

    /// What is to hold of the rows of both sides does.
    fn holds(
        &mut self,
        law: &'static str,
        left: &Side,
        right: &Side,
        law_holds: impl Fn(&Row, &Row) -> bool,
    ) {
        let count = self.laws.entry(law).or_default();
        match (left.row(POOL), right.row(POOL)) {
            (Ok(first), Ok(second)) => {
                assert!(
                    law_holds(&first, &second),
                    "{law}: {:?} and {:?} give {first:?} and {second:?}",
                    left.table,
                    right.table
                );
                count.0 += 1;
            }
            _ => count.1 += 1,
        }
    }
}

#[test]
fn the_laws_hold() {
    let mut counts = Counts::default();
    for seed in 0..10_000 {
        let mut random = Random::new(0x1A35_0000 + seed);
        let operands = answered(&mut random, 500, false);
        if operands.entries() + 4 > ENTRY_LIMIT {
            continue;
        }
        shifts_and_groups(&operands, &mut random, &mut counts);
        alters(&operands, &mut random, &mut counts);
        sets(&operands, &mut random, &mut counts);
        selections(&operands, &mut random, &mut counts);
    }
    for (law, (held, refused)) in &counts.laws {
        println!("{law}: both sides answered {held} times, one refused {refused} times");
    }
    println!(
        "select-up and combine of a and b, other than a: {:?}",
        counts.changed
    );
    assert_eq!(counts.laws.len(), LAWS);
    assert!(counts.laws.values().all(|&(held, _)| held >= 100));
    assert!(counts.changed.iter().all(|&changed| changed >= 100));
}

fn shifts_and_groups(operands: &Answered, random: &mut Random, counts: &mut Counts) {
    let small = |random: &mut Random| match random.below(8) {
        0 => random.range(-500_000_000, 500_000_000) as i32,
        _ => random.range(-9, 9) as i32,
    };
    let entries = operands.entries();
    let a = random.below(entries) as i32;
    let side = |entry| Side::of(&operands.table, entry);

    let (s, t) = (small(random), small(random));
    counts.compare(
        "shift s then t = shift s+t",
        side(a).then(2, 0, [s, 0, 0]).then(2, 0, [t, 0, 0]),
        side(a).then(2, 0, [s + t, 0, 0]),
    );
    counts.compare(
        "shift 0 changes nothing",
        side(a).then(2, 0, [0; 3]),
        side(a),
    );
    let (x, y) = (small(random), small(random));
    counts.compare(
        "renumber x then y = renumber x then shift 1-y",
        side(a).then(12, 0, [x, 0, 0]).then(12, 0, [y, 0, 0]),
        side(a).then(12, 0, [x, 0, 0]).then(2, 0, [1 - y, 0, 0]),
    );
    counts.compare("combine(a, a) = a", side(a).then(4, a, [0; 3]), side(a));

    let full: Vec<i32> = (0..entries)
        .filter(|&entry| operands.is_full(entry))
        .map(|entry| entry as i32)
        .collect();
    let a = random.choose(&full);
    let (m, n) = (random.range(1, 7) as i32, random.range(1, 7) as i32);
    counts.compare(
        "group 1 changes nothing",
        side(a).then(1, 0, [1, 0, 0]),
        side(a),
    );
    counts.compare(
        "group m then n = group m*n",
        side(a).then(1, 0, [m, 0, 0]).then(1, 0, [n, 0, 0]),
        side(a).then(1, 0, [m * n, 0, 0]),
    );
    let s = random.range(-9, 9) as i32;
    counts.compare(
        "group m of shift m*s = shift s of group m",
        side(a).then(2, 0, [m * s, 0, 0]).then(1, 0, [m, 0, 0]),
        side(a).then(1, 0, [m, 0, 0]).then(2, 0, [s, 0, 0]),
    );
    counts.compare("anchor(a, a) = a", side(a).then(5, a, [0; 3]), side(a));
}

fn alters(operands: &Answered, random: &mut Random, counts: &mut Counts) {
    let side = |entry| Side::of(&operands.table, entry);
    for coarse in (0..operands.entries()).filter(|&entry| operands.is_full(entry)) {
        let mut finer = operands.finer(coarse);
        finer.push(coarse);
        let fine = random.choose(&finer) as i32;
        let x = random.range(1, 9) as i32;
        let y = random.range(1, x.into()) as i32;
        let z = random.range(-3, 4) as i32;
        let coarse = coarse as i32;
        let alter = |side: Side, coarse: i32, z: i32| side.with(3, fine, coarse, [x, y, z]);
        counts.compare(
            "alter by 0 = the coarse operand",
            alter(side(fine), coarse, 0),
            side(coarse),
        );
        let altered = alter(side(fine), coarse, z);
        let result = altered.result;
        counts.compare(
            "alter with z then -z = the coarse operand",
            alter(altered, result, -z),
            side(coarse),
        );
    }
}

fn sets(operands: &Answered, random: &mut Random, counts: &mut Counts) {
    const UNION: i32 = 9;
    const INTERSECTION: i32 = 10;
    const DIFFERENCE: i32 = 11;
    let side = |entry| Side::of(&operands.table, entry);
    // Three calendars of one stock, different ones if there are.
    let mut choices = Vec::new();
    for _ in 0..6 {
        let a = random.below(operands.entries());
        let kin: Vec<usize> = (0..operands.entries())
            .filter(|&other| operands.are_kin(a, other))
            .collect();
        choices.push([a, random.choose(&kin), random.choose(&kin)].map(|entry| entry as i32));
    }
    let differing = |[a, b, c]: &[i32; 3]| usize::from(a != b) + usize::from(b != c);
    choices.sort_by_key(differing);
    let [a, b, c] = *choices.last().expect("six choices");
    // Results of the first and the second entry added.
    let first = operands.entries() as i32;
    let second = first + 1;
    for (kind, commutes, associates) in [
        (UNION, "union commutes", "union associates"),
        (
            INTERSECTION,
            "intersection commutes",
            "intersection associates",
        ),
    ] {
        counts.compare(
            commutes,
            side(a).entry(kind, a, b),
            side(a).entry(kind, b, a),
        );
        counts.compare(
            associates,
            side(a).entry(kind, a, b).entry(kind, first, c),
            side(a).entry(kind, b, c).entry(kind, a, first),
        );
    }
    counts.compare(
        "union(a, intersection(a, b)) = a",
        side(a).entry(INTERSECTION, a, b).entry(UNION, a, first),
        side(a),
    );
    counts.compare(
        "intersection(a, union(b, c)) = union(intersection(a, b), intersection(a, c))",
        side(a).entry(UNION, b, c).entry(INTERSECTION, a, first),
        side(a)
            .entry(INTERSECTION, a, b)
            .entry(INTERSECTION, a, c)
            .entry(UNION, first, second),
    );
    counts.compare(
        "a - (a - b) = intersection(a, b)",
        side(a).entry(DIFFERENCE, a, b).entry(DIFFERENCE, a, first),
        side(a).entry(INTERSECTION, a, b),
    );
}

/// Laws of document 02, of select-up and combine.
fn selections(operands: &Answered, random: &mut Random, counts: &mut Counts) {
    const COMBINE: i32 = 4;
    const SELECT_UP: i32 = 7;
    let side = |entry| Side::of(&operands.table, entry);
    // Some of the slots that make up a's slots, or any.
    let a = random.below(operands.entries());
    let finer = operands.finer(a);
    let stock: Vec<usize> = (0..operands.entries())
        .filter(|&other| finer.iter().any(|&fine| operands.are_kin(fine, other)))
        .collect();
    let b = if stock.is_empty() || random.percent(25) {
        random.below(operands.entries())
    } else {
        random.choose(&stock)
    };
    let (a, b) = (a as i32, b as i32);
    let first = operands.entries() as i32;
    let up = side(a).entry(SELECT_UP, a, b);
    let combined = side(a).entry(COMBINE, a, b);
    counts.compare(
        "select-up of select-up(a, b) by b = select-up(a, b)",
        up.clone().entry(SELECT_UP, first, b),
        up.clone(),
    );
    counts.compare(
        "combine(a, combine(a, b)) = combine(a, b)",
        combined.clone().entry(COMBINE, a, first),
        combined.clone(),
    );
    counts.holds(
        "labels of select-up(a, b) = labels of combine(a, b)",
        &up,
        &combined,
        same_labels,
    );
    let whole = side(a).row(POOL);
    for (changed, side) in counts.changed.iter_mut().zip([up, combined]) {
        *changed += u32::from(side.row(POOL).is_ok_and(|row| Ok(row) != whole));
    }
}

/// Whether the same whole numbers are labels in both rows.
fn same_labels(first: &Row, second: &Row) -> bool {
    // A whole number of turns of each.
    let window = lcm(first.distance as usize, second.distance as usize) as i64;
    let labels = |row: &Row| -> BTreeSet<i64> {
        let turns = (0..window / row.distance).map(|turn| turn * row.distance);
        let cells = row.cells.iter().filter(|&&cell| cell != EMPTY);
        let residues: BTreeSet<i64> = cells
            .map(|&cell| i64::from(cell).rem_euclid(row.distance))
            .collect();
        turns
            .flat_map(|turn| residues.iter().map(move |residue| residue + turn))
            .collect()
    };
    labels(first) == labels(second)
}
