//! The second implementation against the documents' words taken one by one.
//!
//! Everything here is as slow and as literal as can be: a slot is a list of
//! instants, "inside" is asked for each of them, the least period is the first
//! that fits. It serves for small tables only; where a number is too far out
//! to be counted up to, the table is passed over.

// The limits stand here as in the paper.
#![allow(clippy::int_plus_one, clippy::manual_range_contains)]

use jogipahn_compare::random::Random;
use jogipahn_compare::second::{convert, EMPTY};
use jogipahn_compare::tables::{case_within, Case};

/// "Each heading gets a fourth number."
const HEADING_NUMBERS: usize = 4;

/// How far anything is counted.
const PATIENCE: i64 = 3000;

struct Calendar {
    period: i64,
    distance: i64,
    labels: Vec<Option<i64>>,
}

impl Calendar {
    fn label(&self, t: i64) -> Option<i64> {
        let label = self.labels[t.rem_euclid(self.period) as usize]?;
        Some(label + self.distance * t.div_euclid(self.period))
    }

    /// All instants with that label.
    fn slot(&self, label: i64) -> Vec<i64> {
        let some = self.labels.iter().find_map(|&label| label).unwrap();
        let turn = (label - some).div_euclid(self.distance);
        let near = (turn - 2) * self.period..(turn + 3) * self.period;
        near.filter(|&t| self.label(t) == Some(label)).collect()
    }

    fn has(&self, label: i64) -> bool {
        !self.slot(label).is_empty()
    }

    fn is_full(&self) -> bool {
        (0..self.distance).all(|label| self.has(label))
    }

    /// The labels among N whole numbers in a row.
    fn slots_per_period(&self) -> usize {
        (0..self.distance).filter(|&label| self.has(label)).count()
    }
}

/// Either the number of a refusal, or that nobody has the patience.
enum No {
    Refused(u32),
    TooFar,
}

use No::{Refused, TooFar};

fn gcd(a: i128, b: i128) -> i128 {
    if b == 0 {
        a.abs()
    } else {
        gcd(b, a % b)
    }
}

fn lcm(a: i128, b: i128) -> i128 {
    a * b / gcd(a, b)
}

fn refuse_if(condition: bool, number: u32) -> Result<(), No> {
    if condition {
        Err(Refused(number))
    } else {
        Ok(())
    }
}

/// The labels in the slots of a that are wholly inside the given instants.
fn wholly_inside(a: &Calendar, instants: &[i64]) -> Vec<i64> {
    let mut labels = sharing(a, instants);
    labels.retain(|&label| a.slot(label).iter().all(|t| instants.contains(t)));
    labels
}

/// The labels of the slots of a that share one of the instants.
fn sharing(a: &Calendar, instants: &[i64]) -> Vec<i64> {
    let mut labels: Vec<i64> = instants.iter().filter_map(|&t| a.label(t)).collect();
    labels.sort();
    labels.dedup();
    labels
}

fn picks(x: i64, y: i64, labels: &[i64], label: i64) -> bool {
    let count = labels.len() as i64;
    let Some(place) = labels.iter().position(|&other| other == label) else {
        return false;
    };
    let position = place as i64 + 1;
    if x > 0 {
        x <= position && position <= x + y - 1
    } else {
        count + x + 1 <= position && position <= count + x + y
    }
}

struct Alter<'a> {
    a: &'a Calendar,
    b: &'a Calendar,
    x: i64,
    y: i64,
    z: i64,
}

impl Alter<'_> {
    /// The fine slots that slot i is made of: the first and the last.
    fn slot(&self, i: i64) -> (i64, i64) {
        let fine: Vec<i64> = self
            .b
            .slot(i)
            .iter()
            .map(|&t| self.a.label(t).unwrap())
            .collect();
        let (p, q) = (*fine.iter().min().unwrap(), *fine.iter().max().unwrap());
        let h = (i - self.y).div_euclid(self.x) + 1;
        let first = if (i - self.y) % self.x == 0 {
            p + (h - 1) * self.z
        } else {
            p + h * self.z
        };
        (first, q + h * self.z)
    }

    /// The label of the slot that has the fine slot, looked for on both sides
    /// of where it was before.
    fn label(&self, t: i64) -> Result<Option<i64>, No> {
        let (Some(fine), Some(before)) = (self.a.label(t), self.b.label(t)) else {
            return Ok(None);
        };
        for away in 0..PATIENCE / 10 {
            for i in [before - away, before + away] {
                let (first, last) = self.slot(i);
                if first <= fine && fine <= last {
                    return Ok(Some(i));
                }
            }
        }
        Err(TooFar)
    }
}

fn aligned_for_alter(a: &Calendar, b: &Calendar, span: i64) -> bool {
    (-span..2 * span).all(|t| {
        a.label(t).is_some() == b.label(t).is_some()
            && a.label(t).is_none_or(|label| {
                a.slot(label)
                    .iter()
                    .all(|&other| b.label(other) == b.label(t))
            })
    })
}

fn aligned_for_anchor(a: &Calendar, b: &Calendar, span: i64) -> bool {
    (-span..2 * span).all(|t| {
        b.label(t)
            .is_none_or(|label| a.slot(label) == b.slot(label))
    })
}

fn aligned_for_sets(a: &Calendar, b: &Calendar, span: i64) -> bool {
    let mut before = None;
    (-2 * span..3 * span).all(|t| {
        let same = match (a.label(t), b.label(t)) {
            (Some(first), Some(second)) => first == second,
            _ => true,
        };
        let together = a.label(t).or(b.label(t));
        let falls = together.is_some() && before > together;
        before = together.or(before);
        let shared = together
            .is_none_or(|label| !a.has(label) || !b.has(label) || a.slot(label) == b.slot(label));
        same && !falls && shared
    })
}

/// One entry, in a room of so many cells.
fn entry(numbers: &[i32], earlier: &[Calendar], room: i64) -> Result<Calendar, No> {
    let kind = numbers[0];
    refuse_if(!(0..=12).contains(&kind), 4)?;
    let operands = match kind {
        0 => 0,
        1 | 2 | 12 => 1,
        _ => 2,
    };
    for &name in &numbers[1..1 + operands] {
        refuse_if(name < 0 || name as usize >= earlier.len(), 5)?;
    }
    let [x, y, z] = [3, 4, 5].map(|place| i64::from(numbers[place]));
    let named = match kind {
        1 | 2 | 12 => 1,
        3 => 3,
        6 | 8 => 2,
        _ => 0,
    };
    let unnamed = numbers[1 + operands..3].iter().chain(&numbers[3 + named..]);
    refuse_if(unnamed.copied().any(|number| number != 0), 6)?;
    let outside = match kind {
        1 => !(1 <= x && x <= 1_000_000),
        2 | 12 => x.abs() > 1_000_000_000,
        3 => !(1 <= x && x <= 1_000_000 && 1 <= y && y <= x && z.abs() <= 1_000_000),
        6 | 8 => x == 0 || x.abs() > 1_000_000 || !(1 <= y && y <= 1_000_000),
        _ => false,
    };
    refuse_if(outside, 6)?;

    if operands == 0 {
        refuse_if(room < 1, 8)?;
        return Ok(Calendar {
            period: 1,
            distance: 1,
            labels: vec![Some(0)],
        });
    }
    let a = &earlier[numbers[1] as usize];
    let b = &earlier[numbers[2] as usize];
    let both = operands == 2;
    refuse_if([1, 3, 5].contains(&kind) && !a.is_full(), 7)?;
    refuse_if(kind == 3 && !b.is_full(), 7)?;
    let span = if both {
        lcm(a.period.into(), b.period.into())
    } else {
        a.period.into()
    };
    refuse_if(span > room.into(), 8)?;
    let span = span as i64;
    let aligned = match kind {
        3 => aligned_for_alter(a, b, span),
        5 => aligned_for_anchor(a, b, span),
        9..=11 => aligned_for_sets(a, b, span),
        _ => true,
    };
    refuse_if(!aligned, 9)?;

    let alter = Alter { a, b, x, y, z };
    let (wide_x, wide_z) = (i128::from(x), i128::from(z));
    let na = i128::from(a.distance);
    let working = match kind {
        1 => i128::from(a.period) * wide_x / gcd(wide_x, na),
        3 => {
            let rise_b = i128::from(b.distance * (span / b.period));
            let rise_a = i128::from(a.distance * (span / a.period));
            let n = lcm(rise_b, wide_x);
            if n > PATIENCE.into() {
                return Err(TooFar);
            }
            for i in 0..n as i64 {
                let (first, last) = alter.slot(i);
                refuse_if(last < first, 10)?;
            }
            let d = n / rise_b * rise_a + wide_z * n / wide_x;
            let r = na / gcd(d, na);
            i128::from(a.period) * r * d / na
        }
        _ => span.into(),
    };
    refuse_if(working > room.into(), 8)?;
    let working = working as i64;

    // The label that 12's least label not below x has, and how many labels
    // there are from there to another.
    let one = if kind == 12 {
        (x..x + PATIENCE).find(|&label| a.has(label))
    } else {
        None
    };
    let number_from = |one: i64, label: i64| -> Result<i64, No> {
        if (label - one).abs() > PATIENCE {
            return Err(TooFar);
        }
        let between = one.min(label)..one.max(label);
        let count = between.filter(|&between| a.has(between)).count() as i64;
        Ok(if label < one { 1 - count } else { 1 + count })
    };
    let meaning = |t: i64| -> Result<Option<i64>, No> {
        let Some(own) = a.label(t) else {
            // Only a union labels more instants than a.
            return Ok(if kind == 9 { b.label(t) } else { None });
        };
        let slot = a.slot(own);
        let taken = match kind {
            1 => return Ok(Some(-(-own).div_euclid(x))),
            2 => return Ok(Some(own + x)),
            3 => return alter.label(t),
            4 => b
                .label(t)
                .is_some_and(|inner| b.slot(inner).iter().all(|&u| a.label(u) == Some(own))),
            5 => return Ok((own - b.distance..=own).rev().find(|&label| b.has(label))),
            6 => {
                let holder = b.label(t);
                let inside = slot.iter().all(|&u| b.label(u) == holder);
                match holder {
                    Some(i) if inside => picks(x, y, &wholly_inside(a, &b.slot(i)), own),
                    _ => false,
                }
            }
            7 => slot.iter().any(|&u| {
                b.label(u)
                    .is_some_and(|held| b.slot(held).iter().all(|v| slot.contains(v)))
            }),
            8 => slot.iter().any(|&u| {
                b.label(u)
                    .is_some_and(|i| picks(x, y, &sharing(a, &b.slot(i)), own))
            }),
            9 => true,
            10 => b.has(own),
            11 => !b.has(own),
            _ => return number_from(one.ok_or(TooFar)?, own).map(Some),
        };
        Ok(taken.then_some(own))
    };
    // Over two turns, to see the distance.
    let mut labels = Vec::new();
    for t in 0..2 * working {
        labels.push(meaning(t)?);
    }
    let some = labels[..working as usize]
        .iter()
        .position(|label| label.is_some());
    let Some(some) = some else {
        return Err(Refused(12));
    };
    let far = labels[..working as usize]
        .iter()
        .flatten()
        .any(|label| label.abs() > 1_000_000_000);
    refuse_if(far, 11)?;
    let distance_over = |period: usize| Some(labels[some + period]? - labels[some]?);
    let fits = |period: usize| {
        let Some(distance) = distance_over(period) else {
            return false;
        };
        (0..working as usize).all(|t| labels[t + period] == labels[t].map(|label| label + distance))
    };
    assert!(fits(working as usize), "the working period is none");
    let least = (1..).find(|&period| fits(period)).unwrap();
    Ok(Calendar {
        period: least as i64,
        distance: distance_over(least).unwrap(),
        labels: labels[..least].to_vec(),
    })
}

/// Headings and pool.
type Lists = (Vec<u32>, Vec<i32>);

/// The lists that conversion should leave, or the refusal if it can be told.
fn conversion(case: &Case) -> Result<Lists, Option<(u32, u32)>> {
    let entries = case.table.len() / 6;
    if !case.table.len().is_multiple_of(6) || entries < 1 || entries > 64 {
        return Err(Some((1, 0)));
    }
    if case.headings / HEADING_NUMBERS < entries {
        return Err(Some((2, 0)));
    }
    if case.pool > 4_194_304 {
        return Err(Some((3, 0)));
    }
    let mut calendars = Vec::new();
    let mut headings = Vec::new();
    let mut pool = Vec::new();
    for (number, numbers) in case.table.chunks_exact(6).enumerate() {
        let room = (case.pool - pool.len()) as i64;
        match entry(numbers, &calendars, room) {
            Ok(calendar) => {
                let heading: [u32; HEADING_NUMBERS] = [
                    pool.len() as u32,
                    calendar.period as u32,
                    calendar.distance as u32,
                    calendar.slots_per_period() as u32,
                ];
                headings.extend(heading);
                pool.extend(
                    calendar
                        .labels
                        .iter()
                        .map(|label| label.map_or(EMPTY, |label| label as i32)),
                );
                calendars.push(calendar);
            }
            Err(Refused(refusal)) => return Err(Some((refusal, number as u32))),
            Err(TooFar) => return Err(None),
        }
    }
    headings.resize(case.headings, 0);
    pool.resize(case.pool, EMPTY);
    Ok((headings, pool))
}

#[test]
fn small_tables_are_converted_as_the_words_say() {
    const TABLES: u64 = 50_000;
    let mut answered = [0; 13];
    let mut refused = [0; 13];
    let mut passed_over = 0;
    for seed in 0..TABLES {
        let mut random = Random::new(0xDEF1_0000 + seed);
        let cells = random.choose(&[20, 40, 40, 60, 100]);
        let case = case_within(&mut random, cells, false);
        let mut headings = vec![7; case.headings];
        let mut pool = vec![7; case.pool];
        let answer = convert(&case.table, &mut headings, &mut pool);
        match conversion(&case) {
            Ok((expected_headings, expected_pool)) => {
                assert_eq!(answer, Ok(()), "seed {seed}: {case:?}");
                assert_eq!(headings, expected_headings, "seed {seed}: {case:?}");
                assert_eq!(pool, expected_pool, "seed {seed}: {case:?}");
                for entry in case.table.chunks_exact(6) {
                    answered[entry[0] as usize] += 1;
                }
            }
            Err(Some(refusal)) => {
                assert_eq!(answer, Err(refusal), "seed {seed}: {case:?}");
                refused[refusal.0 as usize] += 1;
            }
            Err(None) => passed_over += 1,
        }
    }
    println!("{TABLES} tables, {passed_over} passed over");
    println!("entries answered by kind from 0: {answered:?}");
    println!("tables refused by number from 1: {:?}", &refused[1..]);
    assert!(answered.iter().all(|&count| count >= 50));
    assert!(refused[1..].iter().all(|&count| count >= 50));
}
