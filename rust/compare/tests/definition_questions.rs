//! The second implementation's answers against the documents' words taken one
//! by one, for short rows.

// The limits stand here as in the paper.
#![allow(clippy::manual_range_contains)]

use std::collections::BTreeMap;

use jogipahn_compare::random::Random;
use jogipahn_compare::rows::{
    can_unroll, damage, instant, places, question, slots_given, unrolled, whole_row, whole_rows,
    OwnRow, Question, DAMAGES, PLACES,
};
use jogipahn_compare::second::questions::{self, Allowance};
use jogipahn_compare::second::EMPTY;

const LIMIT: i64 = 1_000_000_000;

fn refuse_if(condition: bool, number: u32) -> Result<(), u32> {
    if condition {
        Err(number)
    } else {
        Ok(())
    }
}

/// Rule 13.
fn test_row(row: &OwnRow) -> Result<(), u32> {
    let (period, distance) = (row.period, row.distance);
    refuse_if(row.cells.len() as i64 != period, 13)?;
    refuse_if(
        !(1 <= distance && distance <= period && period <= 4_194_304),
        13,
    )?;
    let labels: Vec<i64> = row
        .cells
        .iter()
        .filter(|&&cell| cell != EMPTY)
        .map(|&cell| cell.into())
        .collect();
    refuse_if(labels.iter().any(|label| label.abs() > LIMIT), 13)?;
    refuse_if(labels.is_empty(), 13)?;
    let two_turns: Vec<i64> = labels
        .iter()
        .copied()
        .chain(labels.iter().map(|label| label + distance))
        .collect();
    refuse_if(!two_turns.is_sorted(), 13)
}

fn label(row: &OwnRow, t: i64) -> Option<i64> {
    let cell = row.cells[t.rem_euclid(row.period) as usize];
    (cell != EMPTY).then(|| i64::from(cell) + row.distance * t.div_euclid(row.period))
}

/// All instants with that label.
fn slot(row: &OwnRow, label_wanted: i64) -> Vec<i64> {
    let some = row
        .cells
        .iter()
        .find(|&&cell| cell != EMPTY)
        .copied()
        .unwrap();
    let turn = (label_wanted - i64::from(some)).div_euclid(row.distance);
    let near = (turn - 2) * row.period..(turn + 3) * row.period;
    near.filter(|&t| label(row, t) == Some(label_wanted))
        .collect()
}

fn slot_asked(row: &OwnRow, z: i64) -> Result<Vec<i64>, u32> {
    let instants = slot(row, z);
    refuse_if(instants.is_empty(), 15)?;
    Ok(instants)
}

fn up_instant(row: &OwnRow, t: i64) -> Result<Option<(i64, u64)>, u32> {
    test_row(row)?;
    refuse_if(!(-LIMIT <= t && t <= LIMIT), 14)?;
    let Some(label) = label(row, t) else {
        return Ok(None);
    };
    let place = slot(row, label).iter().position(|&own| own == t);
    Ok(place.map(|place| (label, place as u64 + 1)))
}

fn up_granule(g: &OwnRow, h: &OwnRow, z: i64) -> Result<Option<i64>, u32> {
    test_row(g)?;
    test_row(h)?;
    refuse_if(!(-LIMIT <= z && z <= LIMIT), 14)?;
    let instants = slot_asked(g, z)?;
    let holder = label(h, instants[0]);
    let held = instants.iter().all(|&t| label(h, t) == holder);
    Ok(if held { holder } else { None })
}

fn down(h: &OwnRow, g: &OwnRow, z: i64, most: usize) -> Result<Vec<i64>, u32> {
    test_row(h)?;
    test_row(g)?;
    refuse_if(!(-LIMIT <= z && z <= LIMIT), 14)?;
    let instants = slot_asked(h, z)?;
    let mut parts: Vec<i64> = instants.iter().filter_map(|&t| label(g, t)).collect();
    parts.sort();
    parts.dedup();
    parts.retain(|&part| slot(g, part).iter().all(|t| instants.contains(t)));
    let mut made_up: Vec<i64> = parts.iter().flat_map(|&part| slot(g, part)).collect();
    made_up.sort();
    refuse_if(made_up != instants, 16)?;
    refuse_if(parts.len() > most, 17)?;
    Ok(parts)
}

fn may_be_late(row: &OwnRow, z: i64, d: i64, rule: Allowance) -> Result<bool, u32> {
    test_row(row)?;
    refuse_if(!(-LIMIT <= z && z <= LIMIT), 14)?;
    refuse_if(!(0 <= d && d <= 1_048_576), 14)?;
    let shares: Vec<f64> = (1..=256).map(|share| f64::from(share) / 256.0).collect();
    match rule {
        Allowance::Fixed(amount) => refuse_if(!(amount.is_finite() && amount >= 0.0), 18)?,
        Allowance::Share(amount) => refuse_if(!shares.contains(&amount), 18)?,
    }
    let instants = slot_asked(row, z)?;
    let length = instants.len();
    let most = match rule {
        Allowance::Fixed(amount) => amount,
        Allowance::Share(amount) => amount * length as f64,
    };
    Ok(d as f64 <= most)
}

/// R, the labels among N whole numbers in a row.
fn slots(row: &OwnRow) -> i64 {
    let any: i64 = row
        .cells
        .iter()
        .find(|&&cell| cell != EMPTY)
        .copied()
        .unwrap()
        .into();
    (any..any + row.distance)
        .filter(|&label| !slot(row, label).is_empty())
        .count() as i64
}

/// Whether some distance goes with that period.
fn is_period(row: &OwnRow, period: i64) -> bool {
    let near = -row.period..2 * row.period;
    row.distance * period % row.period == 0
        && near.clone().all(|t| {
            let risen = row.distance * period / row.period;
            label(row, t + period) == label(row, t).map(|label| label + risen)
        })
}

fn least_period(row: &OwnRow) -> Result<(i64, i64), u32> {
    test_row(row)?;
    let least = (1..=row.period)
        .find(|&period| is_period(row, period))
        .unwrap();
    let divides_all = |times: &i64| {
        row.period % times == 0 && row.distance % times == 0 && slots(row) % times == 0
    };
    let greatest = (1..=row.period).filter(divides_all).max().unwrap();
    // Those of its divisors with which a turn would be as long as the least
    // period or shorter.
    let tried = (1..=greatest)
        .filter(|times| greatest % times == 0 && row.period / times <= least)
        .count();
    Ok((least, tried as i64))
}

fn figures(row: &OwnRow, slots_given: i64) -> Result<(f64, f64, f64), u32> {
    test_row(row)?;
    refuse_if(slots_given != slots(row), 13)?;
    let open = row.cells.iter().filter(|&&cell| cell != EMPTY).count() as f64;
    let slots = slots(row) as f64;
    let period = row.period as f64;
    Ok((open / period, open / slots, period / slots))
}

#[test]
fn questions_are_answered_as_the_words_say() {
    let mut answered = 0;
    let mut refused = [0; 19];
    for seed in 0..20_000 {
        let mut random = Random::new(0xA5C_0000 + seed);
        let rows = whole_rows(&mut random, false);
        for _ in 0..8 {
            let mut first = rows[random.below(rows.len())].clone();
            let mut second = rows[if random.percent(30) {
                0
            } else {
                random.below(rows.len())
            }]
            .clone();
            if first.cells.len().max(second.cells.len()) > 120 {
                continue;
            }
            if random.percent(5) {
                let row = if random.percent(70) {
                    &mut first
                } else {
                    &mut second
                };
                let way = random.below(DAMAGES.len());
                damage(row, way, &mut random);
            }
            let question = question(&mut random, &first);
            match compare(&question, &first, &second) {
                None => answered += 1,
                Some(number) => refused[number as usize] += 1,
            }
        }
    }
    println!(
        "{answered} questions answered, refused by number from 13: {:?}",
        &refused[13..]
    );
    assert!(refused[13..].iter().all(|&count| count >= 200));
}

/// Compares the answers; the refusal, if they are one.
fn compare(question: &Question, first: &OwnRow, second: &OwnRow) -> Option<u32> {
    let (one, two) = (first.row(), second.row());
    match *question {
        Question::UpInstant(t) => {
            let answer = questions::up_instant(one, t);
            assert_eq!(answer, up_instant(first, t), "{question:?} {first:?}");
            answer.err()
        }
        Question::UpGranule(z) => {
            let answer = questions::up_granule(one, two, z);
            assert_eq!(
                answer,
                up_granule(first, second, z),
                "{question:?} {first:?} {second:?}"
            );
            answer.err()
        }
        Question::Down(z, most) => {
            let mut list = vec![-7; most];
            let answer = questions::down(one, two, z, &mut list);
            let expected = down(first, second, z, most);
            let count = expected.as_ref().map(Vec::len).map_err(|&number| number);
            assert_eq!(answer, count, "{question:?} {first:?} {second:?}");
            let mut expected_list = expected.unwrap_or_default();
            expected_list.resize(most, 0);
            assert_eq!(list, expected_list, "{question:?} {first:?} {second:?}");
            answer.err()
        }
        Question::Figures(slots) => {
            let answer = questions::figures(one, slots);
            assert_eq!(answer, figures(first, slots), "{slots} {first:?}");
            answer.err()
        }
        Question::LeastPeriod => {
            let answer = questions::least_period(one);
            assert_eq!(answer, least_period(first), "{first:?}");
            answer.err()
        }
        Question::MayBeLate(z, d, rule) => {
            let answer = questions::may_be_late(one, z, d, rule);
            assert_eq!(
                answer,
                may_be_late(first, z, d, rule),
                "{question:?} {first:?}"
            );
            answer.err()
        }
    }
}

#[test]
fn figures_are_given_for_the_right_slots_only() {
    let mut longer_rows = 0;
    for seed in 0..5_000 {
        let mut random = Random::new(0x5107_0000 + seed);
        let row = whole_row(&mut random, 40);
        let mut rows = vec![(row.slots(), row.clone())];
        if can_unroll(&row, 2) {
            rows.push((row.slots(), unrolled(&row, 2)));
            longer_rows += 1;
        }
        for (slots_before, row) in rows {
            assert_eq!(row.slots(), slots(&row), "{row:?}");
            for (name, given) in slots_given(row.slots()) {
                let answer = questions::figures(row.row(), given);
                assert_eq!(answer, figures(&row, given), "{name}: {row:?}");
                assert_eq!(answer.is_ok(), name == "right", "{name}: {row:?}");
            }
            // What was right before the row was written out twice.
            let answer = questions::figures(row.row(), slots_before);
            assert_eq!(answer, figures(&row, slots_before), "{row:?}");
            assert_eq!(answer.is_ok(), slots_before == row.slots(), "{row:?}");
        }
    }
    println!("{longer_rows} rows written out twice");
    assert!(longer_rows >= 1_000, "{longer_rows}");
}

#[test]
fn a_place_is_among_the_slots_own_instants() {
    let mut counts: BTreeMap<&str, u64> = BTreeMap::new();
    for seed in 0..40_000 {
        let mut random = Random::new(0x91AC_0000 + seed);
        let row = whole_row(&mut random, 40);
        let t = instant(&mut random);
        let answer = questions::up_instant(row.row(), t);
        assert_eq!(answer, up_instant(&row, t), "{t} {row:?}");
        let told = match answer {
            Ok(Some((label, _))) => places(&row, &slot(&row, label), t),
            Ok(None) => vec!["none"],
            Err(number) => vec![if number == 14 {
                "refused 14"
            } else {
                "refused"
            }],
        };
        for told in told {
            *counts.entry(told).or_default() += 1;
        }
    }
    println!("{counts:?}");
    for told in PLACES.iter().chain(&["none", "refused 14"]) {
        let count = counts.get(told).copied().unwrap_or(0);
        assert!(count >= 500, "{told}: {count}");
    }
    assert_eq!(counts.len(), PLACES.len() + 2);
}

#[test]
fn the_length_is_the_place_of_the_last_instant() {
    let whole = Allowance::Share(1.0);
    let (mut in_range, mut past_it) = (0, 0);
    for seed in 0..40_000 {
        let mut random = Random::new(0x1A57_0000 + seed);
        let row = whole_row(&mut random, 40);
        let Some(z) = label(&row, instant(&mut random)) else {
            continue;
        };
        let instants = slot(&row, z);
        let (last, length) = (instants[instants.len() - 1], instants.len() as i64);
        if z.abs() > LIMIT {
            continue;
        }
        let late = |d| questions::may_be_late(row.row(), z, d, whole);
        assert_eq!(late(length), Ok(true), "{z} {row:?}");
        assert_eq!(late(length + 1), Ok(false), "{z} {row:?}");
        let answer = questions::up_instant(row.row(), last);
        if last.abs() <= LIMIT {
            assert_eq!(answer, Ok(Some((z, length as u64))), "{z} {row:?}");
            in_range += 1;
        } else {
            assert_eq!(answer, Err(14), "{z} {row:?}");
            past_it += 1;
        }
    }
    println!("last instants: {in_range} in 14's range, {past_it} past it");
    assert!(in_range >= 10_000 && past_it >= 200, "{in_range} {past_it}");
}

#[test]
fn closed_days_are_no_part_of_a_slot() {
    let (mut asked, mut else_allowed) = (0, 0);
    for seed in 0..20_000 {
        let mut random = Random::new(0xC1_05ED_0000 + seed);
        let row = whole_row(&mut random, 40);
        let z = label(&row, random.range(-40, 40)).unwrap_or(0);
        let instants = slot(&row, z);
        if instants.is_empty() {
            continue;
        }
        let share = random.range(1, 256) as f64 / 256.0;
        let rule = Allowance::Share(share);
        let d = random.range(0, 20);
        let answer = questions::may_be_late(row.row(), z, d, rule);
        assert_eq!(
            answer,
            may_be_late(&row, z, d, rule),
            "{row:?} {z} {d} {share}"
        );
        asked += 1;
        let extent = instants[instants.len() - 1] - instants[0] + 1;
        else_allowed += u64::from(answer == Ok(false) && d as f64 <= share * extent as f64);
    }
    println!("{asked} asked, {else_allowed} would be allowed with the closed days");
    assert!(else_allowed >= 200, "{else_allowed}");
}
