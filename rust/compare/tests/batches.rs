//! Questions in batches: each answer is that of the single question to the second implementation.

use std::collections::BTreeMap;

use jogipahn_compare::core;
use jogipahn_compare::random::Random;
use jogipahn_compare::rows::{damage, instant, whole_row, OwnRow, DAMAGES};
use jogipahn_compare::second::questions::{self as second, Allowance};

/// So many batches of each kind are put.
const BATCHES: u64 = 20_000;

/// A row to be asked, one in eight not sound.
fn asked_row(random: &mut Random) -> OwnRow {
    let mut row = whole_row(random, 60);
    if random.below(8) == 0 {
        let way = random.below(DAMAGES.len());
        damage(&mut row, way, random);
    }
    row
}

/// Up to so many instants, or labels that the row may have.
fn questions(random: &mut Random, row: &OwnRow) -> Vec<i64> {
    let labels = random.percent(50);
    let count = random.below(12);
    let one = |random: &mut Random| match row.cells.len() {
        0 => instant(random),
        cells if labels => {
            let turn = random.range(-3, 3);
            let cell = i64::from(row.cells[random.below(cells)]);
            cell.saturating_add(row.distance.saturating_mul(turn))
        }
        _ => instant(random),
    };
    (0..count).map(|_| one(random)).collect()
}

/// The room of a list for so many answers: as many, more, or fewer.
fn room(random: &mut Random, asked: usize) -> usize {
    match random.below(12) {
        0 => asked.saturating_sub(1),
        1 => asked + 1 + random.below(5),
        _ => asked,
    }
}

/// The codes and numbers of all answers, as they are to stand in lists with so much room.
fn left<const N: usize>(answers: &[[i64; N]], room: [usize; N]) -> (i64, [Vec<i64>; N]) {
    let fits = room.iter().all(|&room| answers.len() <= room);
    let mut lists = room.map(|room| vec![0; room]);
    if !fits {
        return (-17, lists);
    }
    for (which, list) in lists.iter_mut().enumerate() {
        for (place, answer) in answers.iter().enumerate() {
            list[place] = answer[which];
        }
    }
    (answers.len() as i64, lists)
}

fn refusal(number: u32) -> i64 {
    -i64::from(number)
}

/// Counts the answer of the call, and the code of each question.
fn count(
    counts: &mut BTreeMap<(&'static str, i64), u64>,
    kind: &'static str,
    told: i64,
    codes: &[i64],
) {
    let call = if told == -17 { -17 } else { 1 };
    *counts.entry(("call", call)).or_default() += 1;
    for &code in codes.iter().take(told.max(0) as usize) {
        *counts.entry((kind, code)).or_default() += 1;
    }
}

fn report(counts: &BTreeMap<(&'static str, i64), u64>, kind: &'static str, codes: &[i64]) {
    for ((kind, code), count) in counts {
        println!("{kind} {code}: {count}");
    }
    for code in codes {
        let count = counts.get(&(kind, *code)).copied().unwrap_or(0);
        assert!(count >= 300, "{kind} {code}: {count}");
    }
    for call in [1, -17] {
        assert!(counts[&("call", call)] >= 1_000, "call {call}");
    }
}

#[test]
fn instants_are_answered_as_one_by_one() {
    let mut counts = BTreeMap::new();
    for seed in 0..BATCHES {
        let mut random = Random::new(0xBA7C_0000 + seed);
        let row = asked_row(&mut random);
        let ts = questions(&mut random, &row);
        let single = |&t: &i64| match second::up_instant(row.row(), t) {
            Ok(Some((label, place))) => [1, label, place as i64],
            Ok(None) => [0; 3],
            Err(number) => [refusal(number), 0, 0],
        };
        let answers: Vec<[i64; 3]> = ts.iter().map(single).collect();
        let room: [usize; 3] = std::array::from_fn(|_| room(&mut random, ts.len()));
        let (told, lists) = core::up_instants(row.row(), &ts, room);
        assert_eq!(
            (told, lists.clone()),
            left(&answers, room),
            "{ts:?} {row:?}"
        );
        count(&mut counts, "instant", told, &lists[0]);
        let asked = core::reader(row.row());
        let one_by_one: Vec<_> = ts.iter().map(|&t| asked.label(t)).collect();
        assert_eq!(asked.labels(&ts), one_by_one);
    }
    report(&counts, "instant", &[1, 0, -13, -14]);
}

#[test]
fn slots_are_answered_as_one_by_one() {
    let mut counts = BTreeMap::new();
    for seed in 0..BATCHES {
        let mut random = Random::new(0xBA7D_0000 + seed);
        let g = asked_row(&mut random);
        let h = if random.percent(30) {
            g.clone()
        } else {
            asked_row(&mut random)
        };
        let zs = questions(&mut random, &g);
        let single = |&z: &i64| match second::up_granule(g.row(), h.row(), z) {
            Ok(Some(label)) => [1, label],
            Ok(None) => [0; 2],
            Err(number) => [refusal(number), 0],
        };
        let answers: Vec<[i64; 2]> = zs.iter().map(single).collect();
        let room: [usize; 2] = std::array::from_fn(|_| room(&mut random, zs.len()));
        let (told, lists) = core::up_granules(g.row(), h.row(), &zs, room);
        assert_eq!(
            (told, lists.clone()),
            left(&answers, room),
            "{zs:?} {g:?} {h:?}"
        );
        count(&mut counts, "slot", told, &lists[0]);
        let (g, h) = (core::reader(g.row()), core::reader(h.row()));
        let one_by_one: Vec<_> = zs.iter().map(|&z| g.up(h, z)).collect();
        assert_eq!(g.up_each(h, &zs), one_by_one);
    }
    report(&counts, "slot", &[1, 0, -13, -14, -15]);
}

#[test]
fn lateness_is_answered_as_one_by_one() {
    let mut counts = BTreeMap::new();
    for seed in 0..BATCHES {
        let mut random = Random::new(0xBA7E_0000 + seed);
        let row = asked_row(&mut random);
        let zs = questions(&mut random, &row);
        let d = random.choose(&[0, 1, 2, 3, 7, 1_048_576, 1_048_577, -1]);
        let share = random.choose(&[0.0, 0.5, 1.0, 1.0 / 256.0]);
        let fixed = random.choose(&[0.0, 2.5, 10.0, -1.0, f64::NAN]);
        let (allowance, safe, rule) = if random.percent(50) {
            (
                Allowance::Share(share),
                jogipahn::Allowance::Share(share),
                (1, share),
            )
        } else {
            (
                Allowance::Fixed(fixed),
                jogipahn::Allowance::Fixed(fixed),
                (0, fixed),
            )
        };
        let single = |&z: &i64| match second::may_be_late(row.row(), z, d, allowance) {
            Ok(yes) => [i64::from(yes)],
            Err(number) => [refusal(number)],
        };
        let answers: Vec<[i64; 1]> = zs.iter().map(single).collect();
        let room = room(&mut random, zs.len());
        let (told, codes) = core::may_be_late_each(row.row(), &zs, d, rule, room);
        let (answer, [expected]) = left(&answers, [room]);
        assert_eq!((told, &codes), (answer, &expected), "{zs:?} {d} {row:?}");
        count(&mut counts, "late", told, &codes);
        let asked = core::reader(row.row());
        let one_by_one: Vec<_> = zs.iter().map(|&z| asked.may_be_late(z, d, safe)).collect();
        assert_eq!(asked.may_be_late_each(&zs, d, safe), one_by_one);
    }
    report(&counts, "late", &[1, 0, -13, -14, -15, -18]);
}
