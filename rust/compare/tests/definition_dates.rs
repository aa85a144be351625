//! The second implementation's dates and its civil table against the rule, one
//! day after the other.

use jogipahn_compare::random::Random;
use jogipahn_compare::second::dates::{
    civil_table, date, day_of_year, instant, month_length, slots_of, tomorrow, MONTHS, TABLE_CELLS,
    YEARS,
};
use jogipahn_compare::second::questions::{up_instant, Row};
use jogipahn_compare::second::{convert, HEADING_NUMBERS};

/// "Months come out with period 146,097 and distance 4,800, years with
/// distance 400", and all of them are full.
const PERIOD: usize = 146_097;
const MONTHS_HEADING: [u32; 3] = [PERIOD as u32, 4_800, 4_800];
const YEARS_HEADING: [u32; 3] = [PERIOD as u32, 400, 400];

#[test]
fn each_day_from_the_one_before() {
    // 1 January 2001 is instant 1; 1600 is 400 years and a year before.
    let mut t = 1 - 146_097 - 366;
    let mut day = (1600, 1, 1);
    let mut days = 0;
    while day.0 <= 2400 {
        assert_eq!(date(t), Ok(day));
        assert_eq!(instant(day.0, day.1, day.2), Ok(t));
        (t, day, days) = (t + 1, tomorrow(day), days + 1);
    }
    println!("{days} days");
    assert_eq!(days, 2 * 146_097 + 366);
}

#[test]
fn dates_that_do_not_exist() {
    let mut refused = 0;
    for year in -800..=2800 {
        for month in 1..=12 {
            for day in -1..=33 {
                let known = (1..=month_length(year, month)).contains(&day);
                assert_eq!(instant(year, month, day).is_ok(), known);
                assert!(known || instant(year, month, day) == Err(20));
                refused += u64::from(!known);
            }
        }
        assert_eq!(instant(year, 0, 1), Err(20));
        assert_eq!(instant(year, 13, 1), Err(20));
    }
    println!("{refused} dates refused");
    assert!(refused >= 100_000, "{refused}");
}

#[test]
fn far_days_and_back() {
    let mut random = Random::new(0xDA7E);
    for _ in 0..20_000 {
        let t = random.range(-1_000_000_000, 999_999_999);
        let (year, month, day) = date(t).unwrap();
        assert_eq!(instant(year, month, day), Ok(t));
        assert_eq!(date(t + 1), Ok(tomorrow((year, month, day))));
    }
    for end in [-1_000_000_000, 1_000_000_000] {
        let (year, month, day) = date(end).unwrap();
        println!("instant {end} is {year}-{month}-{day}");
        assert_eq!(date(end + end.signum()), Err(14));
        assert_eq!(instant(year + end.signum(), month, day), Err(14));
    }
}

#[test]
fn the_table_means_the_rule() {
    let table = civil_table();
    let mut headings = vec![7; HEADING_NUMBERS * (YEARS + 1)];
    let mut pool = vec![7; TABLE_CELLS];
    let short = &mut pool[1..];
    assert_eq!(convert(&table, &mut headings, short), Err((8, 10)));
    assert_eq!(convert(&table, &mut headings, &mut pool), Ok(()));
    let row = |entry: usize, expected: [u32; 3]| {
        let heading = &headings[HEADING_NUMBERS * entry..][..HEADING_NUMBERS];
        assert_eq!(heading[1..], expected);
        Row {
            cells: &pool[heading[0] as usize..][..PERIOD],
            period: PERIOD as i64,
            distance: expected[1].into(),
        }
    };
    let months = row(MONTHS, MONTHS_HEADING);
    let years = row(YEARS, YEARS_HEADING);
    // Instant 0 is the last day of 2000.
    let mut day = (2000, 12, 31);
    for (&month, &year) in months.cells.iter().zip(years.cells) {
        assert_eq!((month.into(), year.into()), slots_of(day), "{day:?}");
        day = tomorrow(day);
    }
    assert_eq!(day, (2400, 12, 31));
    let mut random = Random::new(0xC1F1);
    for _ in 0..100 {
        let t = random.range(-1_000_000_000, 1_000_000_000);
        let date = date(t).unwrap();
        let (month, year) = slots_of(date);
        // The day of a date is its place in its month.
        let (of_month, of_year) = (date.2 as u64, day_of_year(date) as u64);
        assert_eq!(up_instant(months, t), Ok(Some((month, of_month))));
        assert_eq!(up_instant(years, t), Ok(Some((year, of_year))));
    }
}
