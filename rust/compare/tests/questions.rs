//! Questions to rows: the proved core against the second implementation.

use std::collections::BTreeMap;

use jogipahn_compare::core;
use jogipahn_compare::random::Random;
use jogipahn_compare::rows::{
    can_unroll, damage, instant, places, question, slots_given, unrolled, whole_row, whole_rows,
    OwnRow, Question, DAMAGES, PLACES,
};
use jogipahn_compare::second::questions as second;

/// At least so many questions are put to both.
const QUESTIONS: u64 = 240_000;

#[test]
fn questions_are_answered_alike() {
    let mut answers: BTreeMap<String, u64> = BTreeMap::new();
    let mut asked = 0;
    let mut long_questions = 0;
    let mut longest = 0;
    for seed in 0.. {
        if asked >= QUESTIONS {
            break;
        }
        let mut random = Random::new(seed);
        let long = random.below(250) == 0;
        let rows = whole_rows(&mut random, long);
        for _ in 0..12 {
            let first = &rows[random.below(rows.len())];
            let second = &rows[if random.percent(30) {
                0
            } else {
                random.below(rows.len())
            }];
            let question = question(&mut random, first);
            *answers
                .entry(compare(&question, first, second))
                .or_default() += 1;
            asked += 1;
            long_questions += u64::from(first.cells.len().max(second.cells.len()) >= 100_000);
            longest = longest.max(first.cells.len());
        }
        if random.percent(40) {
            if let Some(answer) = compare_damaged(&mut random, &rows) {
                *answers.entry(answer).or_default() += 1;
                asked += 1;
            }
        }
    }
    println!("{asked} questions, {long_questions} of them to rows of 100,000 cells or more");
    println!("the longest row has {longest} cells");
    for (answer, count) in &answers {
        println!("{answer}: {count}");
    }
    let count_of = |words: &str| -> u64 {
        let told = answers.iter().filter(|(answer, _)| answer.contains(words));
        told.map(|(_, count)| count).sum()
    };
    for way in DAMAGES {
        assert!(count_of(way) >= 50, "{way}: {}", count_of(way));
    }
    for blank in [
        "a blank share: refused 18",
        "a fixed allowance of 0: yes",
        "a fixed allowance of 0: no",
    ] {
        assert!(count_of(blank) >= 50, "{blank}: {}", count_of(blank));
    }
    for up in ["a label, place 1", "a label, a later place", "none"] {
        let told = format!("up from an instant: {up}");
        assert!(count_of(&told) >= 1_000, "{told}: {}", count_of(&told));
    }
    for period in [
        "least period: the row's own, the first tried",
        "least period: the row's own, after others",
        "least period: a shorter one, the first tried",
        "least period: a shorter one, after others",
    ] {
        assert!(count_of(period) >= 100, "{period}: {}", count_of(period));
    }
    for number in 13..=18 {
        let refused = format!("refused {number}");
        assert!(
            count_of(&refused) >= 500,
            "{refused}: {}",
            count_of(&refused)
        );
    }
}

/// Asks both for the label and the place of an instant.
fn compare_up_instant(row: &OwnRow, t: i64) -> Result<Option<(i64, u64)>, u32> {
    let answer = core::up_instant(row.row(), t);
    assert_eq!(answer, second::up_instant(row.row(), t), "{t} {row:?}");
    answer
}

#[test]
fn places_are_counted_alike() {
    let mut counts: BTreeMap<&str, u64> = BTreeMap::new();
    for seed in 0..40_000 {
        let mut random = Random::new(0x91AC_0000 + seed);
        let longest = if seed % 1_000 == 0 { 1 << 18 } else { 60 };
        let row = whole_row(&mut random, longest);
        let t = instant(&mut random);
        let told = match compare_up_instant(&row, t) {
            Ok(Some((label, place))) => {
                let slot = row.slot_of(t);
                assert_eq!(row.label(t), Some(label));
                assert_eq!(slot[place as usize - 1], t, "{row:?}");
                places(&row, &slot, t)
            }
            Ok(None) => vec!["none"],
            Err(14) => vec!["refused 14"],
            Err(number) => panic!("refused {number}: {row:?}"),
        };
        for told in told {
            *counts.entry(told).or_default() += 1;
        }
    }
    for (told, count) in &counts {
        println!("place {told}: {count}");
    }
    assert_eq!(counts.len(), PLACES.len() + 2);
    assert!(counts.values().all(|&count| count >= 500), "{counts:?}");
}

#[test]
fn the_length_is_the_place_of_the_last_instant() {
    const LIMIT: i64 = 1_000_000_000;
    let whole = second::Allowance::Share(1.0);
    let mut counts: BTreeMap<&str, u64> = BTreeMap::new();
    for seed in 0..40_000 {
        let mut random = Random::new(0x1A57_0000 + seed);
        let row = whole_row(&mut random, 60);
        let t = instant(&mut random);
        let slot = row.slot_of(t);
        let (Some(z), Some(&last)) = (row.label(t), slot.last()) else {
            continue;
        };
        let answer = compare_up_instant(&row, last);
        let late = |d: u64| core::may_be_late(row.row(), z, d as i64, whole);
        let told = if z.abs() > LIMIT {
            assert_eq!(late(0), Err(14), "{z} {row:?}");
            "a slot outside the range"
        } else {
            // A share of 1 allows the length, and no more.
            let length = slot.len() as u64;
            assert_eq!(late(length), Ok(true), "{z} {row:?}");
            assert_eq!(late(length + 1), Ok(false), "{z} {row:?}");
            if last.abs() > LIMIT {
                assert_eq!(answer, Err(14), "{z} {row:?}");
                "a last instant past the range"
            } else {
                assert_eq!(answer, Ok(Some((z, length))), "{z} {row:?}");
                match last - slot[0] >= slot.len() as i64 {
                    true => "the length of a slot with gaps",
                    false => "the length of a slot without gaps",
                }
            }
        };
        *counts.entry(told).or_default() += 1;
    }
    for (told, count) in &counts {
        println!("{told}: {count}");
    }
    assert_eq!(counts.len(), 4);
    assert!(counts.values().all(|&count| count >= 200), "{counts:?}");
}

/// Asks both for the figures of a row with so many slots per period.
fn compare_figures(row: &OwnRow, slots: i64) -> Result<(f64, f64, f64), u32> {
    let bits = |figures: Result<(f64, f64, f64), u32>| {
        figures.map(|(a, b, c)| [a.to_bits(), b.to_bits(), c.to_bits()])
    };
    let answer = core::figures(row.row(), slots);
    let expected = second::figures(row.row(), slots);
    assert_eq!(bits(answer), bits(expected), "{slots} {row:?}");
    answer
}

#[test]
fn figures_are_given_for_the_right_slots_only() {
    let mut counts: BTreeMap<(&str, &str), u64> = BTreeMap::new();
    for seed in 0..5_000 {
        let mut random = Random::new(0xF16_0000 + seed);
        let longest = if seed % 500 == 0 { 1 << 21 } else { 60 };
        let row = whole_row(&mut random, longest);
        let mut rows = vec![("a row", row.slots(), row.clone())];
        if can_unroll(&row, 2) {
            rows.push(("a row twice", row.slots(), unrolled(&row, 2)));
        }
        for (what, slots_before, row) in rows {
            let mut ask = |name: &'static str, slots: i64| {
                let answer = compare_figures(&row, slots);
                let right = slots == row.slots();
                assert_eq!(answer.err(), (!right).then_some(13), "{name}: {row:?}");
                *counts.entry((what, name)).or_default() += 1;
            };
            for (name, slots) in slots_given(row.slots()) {
                ask(name, slots);
            }
            if slots_before != row.slots() {
                ask("of one turn of the two", slots_before);
            }
        }
    }
    for ((what, name), count) in &counts {
        println!("figures of {what}, slots {name}: {count}");
    }
    assert_eq!(counts.len(), 17);
    assert!(counts.values().all(|&count| count >= 1_000));
}

/// Damages a row, if it can be done, puts a question to it, and says what came
/// of it.
fn compare_damaged(random: &mut Random, rows: &[OwnRow]) -> Option<String> {
    let way = random.below(DAMAGES.len());
    let mut damaged = rows[random.below(rows.len())].clone();
    if !damage(&mut damaged, way, random) {
        return None;
    }
    let whole = &rows[random.below(rows.len())];
    let question = question(random, &damaged);
    let two_rows = matches!(question, Question::UpGranule(_) | Question::Down(..));
    let answer = if two_rows && random.percent(50) {
        compare(&question, whole, &damaged)
    } else {
        compare(&question, &damaged, whole)
    };
    assert!(answer.ends_with("refused 13"), "{}: {answer}", DAMAGES[way]);
    Some(format!("damaged, {}: {answer}", DAMAGES[way]))
}

/// Puts a question to both, and says what both answered.
fn compare(question: &Question, first: &OwnRow, other: &OwnRow) -> String {
    let (one, two) = (first.row(), other.row());
    let told = |name: &str, answer: &str| format!("{name}: {answer}");
    let refused = |number: u32| format!("refused {number}");
    match *question {
        Question::UpInstant(t) => {
            let answer = match compare_up_instant(first, t) {
                Ok(Some((_, 1))) => "a label, place 1".to_owned(),
                Ok(Some(_)) => "a label, a later place".to_owned(),
                Ok(None) => "none".to_owned(),
                Err(number) => refused(number),
            };
            told("up from an instant", &answer)
        }
        Question::UpGranule(z) => {
            let expected = second::up_granule(one, two, z);
            assert_eq!(
                core::up_granule(one, two, z),
                expected,
                "{question:?} {first:?} {other:?}"
            );
            let answer = match expected {
                Ok(Some(_)) => "a label".to_owned(),
                Ok(None) => "none".to_owned(),
                Err(number) => refused(number),
            };
            told("up from a slot", &answer)
        }
        Question::Down(z, most) => {
            // A list of just the right length, and one too short, where it matters.
            let mut parts = vec![-7; most];
            let expected = second::down(one, two, z, &mut parts);
            let lengths = match expected {
                Ok(count) => vec![most, count, count.saturating_sub(1)],
                Err(_) => vec![most],
            };
            for length in lengths {
                let mut expected_parts = vec![-7; length];
                let mut parts = vec![0x5EED; length];
                let expected = second::down(one, two, z, &mut expected_parts);
                let answer = core::down(one, two, z, &mut parts);
                assert_eq!(answer, expected, "{question:?} {first:?} {other:?}");
                assert_eq!(parts, expected_parts, "{question:?} {first:?} {other:?}");
            }
            let answer = match expected {
                Ok(1) => "one part".to_owned(),
                Ok(_) => "several parts".to_owned(),
                Err(number) => refused(number),
            };
            told("down", &answer)
        }
        Question::Figures(slots) => {
            let answer = compare_figures(first, slots);
            told(
                "figures",
                &answer.map_or_else(refused, |_| "three".to_owned()),
            )
        }
        Question::LeastPeriod => {
            let expected = second::least_period(one);
            assert_eq!(core::least_period(one), expected, "{first:?}");
            let answer = match expected {
                Ok((period, tried)) => {
                    let found = if period == one.period {
                        "the row's own"
                    } else {
                        "a shorter one"
                    };
                    let tries = if tried == 1 {
                        "the first tried"
                    } else {
                        "after others"
                    };
                    format!("{found}, {tries}")
                }
                Err(number) => refused(number),
            };
            told("least period", &answer)
        }
        Question::MayBeLate(z, d, rule) => {
            let expected = second::may_be_late(one, z, d, rule);
            assert_eq!(
                core::may_be_late(one, z, d, rule),
                expected,
                "{question:?} {first:?}"
            );
            // A rule that there isn't is an allowance that isn't allowed.
            let unknown = second::may_be_late(one, z, d, second::Allowance::Fixed(-1.0));
            for rule in [-1, 2, i64::MIN, i64::MAX] {
                assert_eq!(
                    core::may_be_late_by(one, z, d, rule, 1.0),
                    unknown,
                    "{question:?} {first:?}"
                );
            }
            let answer = match expected {
                Ok(true) => "yes".to_owned(),
                Ok(false) => "no".to_owned(),
                Err(number) => refused(number),
            };
            match rule {
                second::Allowance::Share(0.0) => told("a blank share", &answer),
                second::Allowance::Fixed(0.0) => told("a fixed allowance of 0", &answer),
                _ => told("lateness", &answer),
            }
        }
    }
}
