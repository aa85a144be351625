//! Dates and the civil table: the proved core against the second
//! implementation, and both against the rule.

use std::collections::BTreeMap;

use jogipahn_compare::core;
use jogipahn_compare::random::Random;
use jogipahn_compare::second::dates::{
    self as second, day_of_year, exists, is_leap, month_length, slots_of, tomorrow, Date, MONTHS,
    TABLE_CELLS, TABLE_NUMBERS, YEARS,
};
use jogipahn_compare::second::questions::{self, Row};
use jogipahn_compare::second::{self as conversion, HEADING_NUMBERS};

const LIMIT: i64 = 1_000_000_000;

/// Asks both for the date of an instant.
fn compare_date(t: i64) -> Result<Date, u32> {
    let answer = core::date(t);
    assert_eq!(answer, second::date(t), "{t}");
    answer
}

/// Asks both for the instant of a date.
fn compare_instant(date: Date) -> Result<i64, u32> {
    let (year, month, day) = date;
    let answer = core::instant(year, month, day);
    assert_eq!(answer, second::instant(year, month, day), "{date:?}");
    answer
}

#[test]
fn all_days_of_1601_to_2400() {
    // 1601 is a round of 400 years before instant 1.
    let mut t = 1 - 146_097;
    let mut day = (1601, 1, 1);
    let (mut days, mut refused) = (0, 0);
    while day.0 <= 2400 {
        assert_eq!(compare_date(t), Ok(day));
        assert_eq!(compare_instant(day), Ok(t));
        let next = tomorrow(day);
        if next.2 == 1 {
            // The month has no day more.
            for no_day in [0, day.2 + 1, day.2 + 2, 32, -1] {
                assert_eq!(compare_instant((day.0, day.1, no_day)), Err(20));
                refused += 1;
            }
        }
        (t, day, days) = (t + 1, next, days + 1);
    }
    println!("{days} days, {refused} dates that don't exist");
    assert_eq!(days, 2 * 146_097);
    assert_eq!(refused, 5 * 12 * 800);
}

#[test]
fn days_to_the_limits_and_beyond() {
    let mut counts: BTreeMap<&str, u64> = BTreeMap::new();
    let mut random = Random::new(0xDA75);
    for _ in 0..60_000 {
        let t = match random.below(6) {
            0 => random.range(-LIMIT, LIMIT),
            1 => random.range(-1_000_000, 1_000_000),
            2 => random.choose(&[LIMIT, -LIMIT]) + random.range(-3, 3),
            3 => random.any_i64(),
            4 => random.choose(&[i64::MIN, i64::MIN + 1, i64::MAX - 1, i64::MAX]),
            _ => random.choose(&[-1, 1]) * random.range(LIMIT + 1, 4 * LIMIT),
        };
        let told = match compare_date(t) {
            Ok(date) => {
                assert_eq!(compare_instant(date), Ok(t));
                match date.0 {
                    ..0 => "a year below 0",
                    0 => "year 0",
                    _ => "a year above 0",
                }
            }
            Err(number) => {
                assert!(number == 14 && !(-LIMIT..=LIMIT).contains(&t), "{t}");
                if t < 0 {
                    "refused 14 below"
                } else {
                    "refused 14 above"
                }
            }
        };
        *counts.entry(told).or_default() += 1;
    }
    // The whole of year 0.
    let new_year = compare_instant((0, 1, 1)).unwrap();
    for t in new_year..new_year + 366 {
        assert_eq!(compare_date(t).map(|date| date.0), Ok(0));
        *counts.entry("year 0").or_default() += 1;
    }
    for (told, count) in &counts {
        println!("{told}: {count}");
    }
    assert_eq!(counts.len(), 5);
    assert!(counts.values().all(|&count| count >= 366), "{counts:?}");
}

#[test]
fn the_last_days() {
    for end in [-LIMIT, LIMIT] {
        let away = end.signum();
        let last = compare_date(end).unwrap();
        println!("instant {end} is {last:?}");
        assert_eq!(compare_instant(last), Ok(end));
        assert_eq!(compare_date(end + away), Err(14));
        // The day behind it, by the rule.
        let behind = if away > 0 {
            tomorrow(last)
        } else {
            let (year, month, day) = last;
            assert!(day > 1, "the day before is in the same month");
            (year, month, day - 1)
        };
        assert_eq!(compare_instant(behind), Err(14));
        assert_eq!(compare_instant((last.0 + away, last.1, last.2)), Err(14));
        assert_eq!(compare_instant((last.0 + 1000 * away, 2, 30)), Err(20));
    }
}

/// Years by how far away they are.
const YEAR_SORTS: [&str; 5] = ["near", "any within reach", "year 0", "near a limit", "far"];

fn any_year(random: &mut Random, sort: &str) -> i64 {
    match sort {
        "near" => random.range(1500, 2500),
        "any within reach" => random.range(-2_735_000, 2_739_000),
        "year 0" => 0,
        "near a limit" => random.choose(&[-2_735_907, 2_739_908]) + random.range(-2, 2),
        _ => match random.below(3) {
            0 => random.choose(&[i64::MIN, i64::MAX, i64::MIN + 1, i64::MAX - 1]),
            1 => random.choose(&[-1, 1]) * random.range(2_739_912, 20_000_000),
            _ => random.bits() as i64 | 1 << 40,
        },
    }
}

/// Months and days of a year, by what is wrong with them.
const DATE_SORTS: [&str; 10] = [
    "a date",
    "month 0",
    "month 13",
    "any other month",
    "day 0",
    "a day below 0",
    "29 February of a common year",
    "30 February",
    "the 31st of 30 days",
    "day 32 or more",
];

fn any_date(random: &mut Random, sort: &str, year: i64) -> Date {
    let mut month = random.range(1, 12);
    let mut day = random.range(1, month_length(year, month));
    match sort {
        "month 0" => month = 0,
        "month 13" => month = 13,
        "any other month" => {
            let any = random.bits() as i64 | 1 << 4;
            month = random.choose(&[-1, -12, 24, 1 << 32 | 1, i64::MIN, i64::MAX, any]);
        }
        "day 0" => day = 0,
        "a day below 0" => day = random.choose(&[-1, -31, i64::MIN, i64::from(i32::MIN)]),
        "29 February of a common year" => {
            let common = (0..4).map(|back| year.wrapping_sub(back));
            let year = common.clone().find(|&year| !is_leap(year));
            return (year.expect("one of four is common"), 2, 29);
        }
        "30 February" => (month, day) = (2, 30),
        "the 31st of 30 days" => (month, day) = (random.choose(&[4, 6, 9, 11]), 31),
        "day 32 or more" => {
            day = random.choose(&[32, 33, 60, 366, 1 << 32 | 1, i64::MAX]);
        }
        _ => {}
    }
    (year, month, day)
}

#[test]
fn dates_that_exist_and_dates_that_do_not() {
    let mut counts: BTreeMap<String, u64> = BTreeMap::new();
    for seed in 0..200_000 {
        let mut random = Random::new(0xDA7E_0000 + seed);
        let years = random.choose(&YEAR_SORTS);
        let sort = if random.percent(40) {
            "a date"
        } else {
            random.choose(&DATE_SORTS)
        };
        let year = any_year(&mut random, years);
        let date = any_date(&mut random, sort, year);
        assert_eq!(exists(date), sort == "a date", "{sort}: {date:?}");
        let told = match compare_instant(date) {
            Ok(t) => {
                assert!((-LIMIT..=LIMIT).contains(&t));
                assert_eq!(compare_date(t), Ok(date));
                "an instant".to_owned()
            }
            Err(number) => format!("refused {number}"),
        };
        // 20 comes before 14, wherever the date would be.
        assert_eq!(told == "refused 20", sort != "a date", "{date:?}");
        *counts
            .entry(format!("{years}, {sort}: {told}"))
            .or_default() += 1;
    }
    for (told, count) in &counts {
        println!("{told}: {count}");
    }
    let least = |told: &str| {
        let count = counts.get(told).copied().unwrap_or(0);
        assert!(count >= 500, "{told}: {count}");
    };
    for years in YEAR_SORTS {
        for sort in &DATE_SORTS[1..] {
            least(&format!("{years}, {sort}: refused 20"));
        }
        if years != "far" {
            least(&format!("{years}, a date: an instant"));
        }
    }
    least("near a limit, a date: refused 14");
    least("far, a date: refused 14");
    // Nothing else is there.
    assert_eq!(counts.len(), 5 * 9 + 4 + 2);
}

#[test]
fn the_table_in_lists_of_all_lengths() {
    let expected = second::civil_table();
    assert_eq!(expected.len(), 66);
    assert_eq!(core::civil_table(), expected);
    let mut random = Random::new(0x7AB1E);
    for length in 0..=200 {
        let mut list: Vec<i32> = (0..length).map(|_| random.any_i32()).collect();
        let answer = core::civil_table_into(&mut list);
        let mut other = vec![7; length];
        assert_eq!(answer, second::civil_table_into(&mut other));
        assert_eq!(list, other);
        if length < TABLE_NUMBERS {
            assert_eq!(answer, None);
            assert!(list.iter().all(|&number| number == 0));
        } else {
            assert_eq!(answer, Some(66));
            assert_eq!(list[..66], expected);
            assert!(list[66..].iter().all(|&number| number == 0));
        }
    }
}

/// The rows of months and years, of a conversion by the core.
struct Civil {
    headings: Vec<u32>,
    pool: Vec<i32>,
}

impl Civil {
    fn converted() -> Self {
        let mut headings = vec![7; HEADING_NUMBERS * (YEARS + 1)];
        let mut pool = vec![7; TABLE_CELLS];
        let answer = core::convert(&core::civil_table(), &mut headings, &mut pool);
        assert_eq!(answer, Ok(()));
        Civil { headings, pool }
    }

    fn heading(&self, entry: usize) -> &[u32] {
        &self.headings[HEADING_NUMBERS * entry..][..HEADING_NUMBERS]
    }

    fn row(&self, entry: usize) -> Row<'_> {
        let heading = self.heading(entry);
        Row {
            cells: &self.pool[heading[0] as usize..][..heading[1] as usize],
            period: heading[1].into(),
            distance: heading[2].into(),
        }
    }
}

#[test]
fn the_table_is_converted_to_the_rule() {
    let civil = Civil::converted();
    assert_eq!(civil.pool.len(), 332_046);
    assert_eq!(civil.heading(MONTHS)[1..], [146_097, 4_800, 4_800]);
    assert_eq!(civil.heading(YEARS)[1..], [146_097, 400, 400]);
    // Instant 0 is the last day of 2000.
    let (months, years) = (civil.row(MONTHS), civil.row(YEARS));
    let mut day = (2000, 12, 31);
    let mut cells = 0;
    for (&month, &year) in months.cells.iter().zip(years.cells) {
        assert_eq!((month.into(), year.into()), slots_of(day), "{day:?}");
        assert_eq!(core::date(cells), Ok(day));
        (day, cells) = (tomorrow(day), cells + 1);
    }
    assert_eq!((cells, day), (146_097, (2400, 12, 31)));
    // The second implementation's conversion leaves the same.
    let mut headings = vec![8; civil.headings.len()];
    let mut pool = vec![8; TABLE_CELLS];
    let answer = conversion::convert(&second::civil_table(), &mut headings, &mut pool);
    assert_eq!(answer, Ok(()));
    assert_eq!(headings, civil.headings);
    assert!(pool == civil.pool);
}

#[test]
fn a_cell_less_is_too_few() {
    let table = core::civil_table();
    let mut headings = vec![7; HEADING_NUMBERS * (YEARS + 1)];
    let mut pool = vec![7; TABLE_CELLS - 1];
    let answer = core::convert(&table, &mut headings, &mut pool);
    assert_eq!(answer, Err((8, YEARS as u32)));
    assert!(headings.iter().all(|&number| number == 0));
    assert!(pool.iter().all(|&cell| cell == i32::MIN));
}

#[test]
fn a_day_is_the_place_in_its_month() {
    let civil = Civil::converted();
    let (months, years) = (civil.row(MONTHS), civil.row(YEARS));
    let mut random = Random::new(0x5107);
    let (mut before_year_1, mut leap_days, mut refused) = (0, 0, 0);
    let mut days = [0; 32];
    for _ in 0..4_000 {
        let t = match random.below(6) {
            0 => random.choose(&[LIMIT, -LIMIT]) + random.range(-1, 1),
            1 => random.range(-800_000, 200_000),
            // The turn of both rows is in the last days of a year.
            2 => 146_097 * random.range(-6_000, 6_000) + random.range(-2, 2),
            3 => second::instant(4 * random.range(476, 524), 2, 29).unwrap_or(0),
            _ => random.range(-LIMIT, LIMIT),
        };
        let asked = [months, years].map(|row| {
            let answer = core::up_instant(row, t);
            assert_eq!(answer, questions::up_instant(row, t), "{t}");
            answer
        });
        let date = match compare_date(t) {
            Ok(date) => date,
            Err(number) => {
                assert_eq!(asked, [Err(number); 2]);
                refused += 1;
                continue;
            }
        };
        assert_eq!(compare_instant(date), Ok(t));
        let (month, year) = slots_of(date);
        let of_year = day_of_year(date) as u64;
        assert_eq!(asked[0], Ok(Some((month, date.2 as u64))), "{date:?}");
        assert_eq!(asked[1], Ok(Some((year, of_year))), "{date:?}");
        before_year_1 += u64::from(date.0 < 1);
        leap_days += u64::from((date.1, date.2) == (2, 29));
        days[date.2 as usize] += 1;
    }
    println!("{before_year_1} before year 1, {leap_days} leap days, {refused} refused");
    println!("by the day of the month: {:?}", &days[1..]);
    assert!(before_year_1 >= 500 && leap_days >= 200 && refused >= 100);
    assert!(days[1..].iter().all(|&count| count >= 20));
}
