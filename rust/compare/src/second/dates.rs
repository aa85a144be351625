//! Dates of the Gregorian calendar, run backward without end, and its table.
//!
//! All of it comes from the leap year rule and the twelve month lengths.

use std::sync::LazyLock;

use super::{ENTRY_NUMBERS, LABEL_LIMIT};

/// Year, month and day. The year is the civil number: a year 0 stands before
/// year 1.
pub type Date = (i64, i64, i64);

/// Instant 1 is 1 January of this year, and it is year slot 1.
pub const FIRST_YEAR: i64 = 2001;

/// How many numbers the civil table has.
pub const TABLE_NUMBERS: usize = 11 * ENTRY_NUMBERS;

/// The least pool in which the civil table is converted.
pub const TABLE_CELLS: usize = 332_046;

/// The entries of months and of years.
pub const MONTHS: usize = 9;
pub const YEARS: usize = 10;

const MONTH_LENGTHS: [i64; 12] = [31, 28, 31, 30, 31, 30, 31, 31, 30, 31, 30, 31];

/// After so many years leap years come back as they were.
const ROUND: i64 = 400;

pub fn is_leap(year: i64) -> bool {
    let multiple_of = |number: i64| year.rem_euclid(number) == 0;
    multiple_of(4) && !multiple_of(100) || multiple_of(400)
}

/// How many days a month has that exists.
pub fn month_length(year: i64, month: i64) -> i64 {
    MONTH_LENGTHS[month as usize - 1] + i64::from(month == 2 && is_leap(year))
}

fn year_length(year: i64) -> i64 {
    MONTH_LENGTHS.iter().sum::<i64>() + i64::from(is_leap(year))
}

pub fn exists((year, month, day): Date) -> bool {
    (1..=12).contains(&month) && (1..=month_length(year, month)).contains(&day)
}

/// The day after a date that exists.
pub fn tomorrow((year, month, day): Date) -> Date {
    match (month, day == month_length(year, month)) {
        (12, true) => (year + 1, 1, 1),
        (_, true) => (year, month + 1, 1),
        _ => (year, month, day + 1),
    }
}

/// A date's place in its year, from 1.
pub fn day_of_year((year, month, day): Date) -> i64 {
    (1..month)
        .map(|month| month_length(year, month))
        .sum::<i64>()
        + day
}

/// The slots of a date's month and of its year.
pub fn slots_of((year, month, _): Date) -> (i64, i64) {
    let year_slot = year - FIRST_YEAR + 1;
    (12 * (year_slot - 1) + month, year_slot)
}

/// The date of an instant.
pub fn date(t: i64) -> Result<Date, u32> {
    if !within_limit(t.into()) {
        return Err(14);
    }
    let round = *DAYS_OF_A_ROUND;
    let mut year = FIRST_YEAR + ROUND * (t - 1).div_euclid(round);
    let mut days = (t - 1).rem_euclid(round);
    while days >= year_length(year) {
        days -= year_length(year);
        year += 1;
    }
    let mut month = 1;
    while days >= month_length(year, month) {
        days -= month_length(year, month);
        month += 1;
    }
    Ok((year, month, days + 1))
}

/// The instant of a date. One that doesn't exist is refused with 20 before 14.
pub fn instant(year: i64, month: i64, day: i64) -> Result<i64, u32> {
    if !exists((year, month, day)) {
        return Err(20);
    }
    // A round of years begins with the first year; this one's has gone so far.
    let years = i128::from(year) - i128::from(FIRST_YEAR);
    let rounds = years.div_euclid(ROUND.into());
    let gone = years.rem_euclid(ROUND.into()) as i64;
    let days = (FIRST_YEAR..FIRST_YEAR + gone)
        .map(year_length)
        .sum::<i64>()
        + day_of_year((year, month, day));
    let t = rounds * i128::from(*DAYS_OF_A_ROUND) + i128::from(days);
    if within_limit(t) {
        Ok(t as i64)
    } else {
        Err(14)
    }
}

static DAYS_OF_A_ROUND: LazyLock<i64> =
    LazyLock::new(|| (FIRST_YEAR..FIRST_YEAR + ROUND).map(year_length).sum());

fn within_limit(t: i128) -> bool {
    t.abs() <= LABEL_LIMIT.into()
}

/// Months and years as a table over days: 31 days each, altered to the month
/// lengths, then by the rules of 4, 100 and 400 years.
pub fn civil_table() -> Vec<i32> {
    let mut table = vec![[0; ENTRY_NUMBERS], [1, 0, 0, 31, 0, 0]];
    let mut alter = |x: i64, y: i64, z: i64| {
        let months = table.len() as i32 - 1;
        table.push([3, 0, months, x as i32, y as i32, z as i32]);
    };
    for (month, length) in (1..).zip(MONTH_LENGTHS).filter(|&(_, length)| length < 31) {
        alter(12, month, length - 31);
    }
    for (years, days) in [(4, 1), (100, -1), (400, 1)] {
        // The first February from month 1 on that the rule is for.
        let year = (FIRST_YEAR..).find(|year| year % years == 0);
        let february = year.map(|year| slots_of((year, 2, 1)).0);
        alter(12 * years, february.expect("years go on"), days);
    }
    let months = table.len() as i32 - 1;
    table.push([1, months, 0, 12, 0, 0]);
    table.concat()
}

/// The civil table in a lent list, zeros behind it, and how many numbers it
/// has; none, and zeros alone, where the list is too short.
pub fn civil_table_into(list: &mut [i32]) -> Option<usize> {
    list.fill(0);
    let table = civil_table();
    list.get_mut(..table.len())?.copy_from_slice(&table);
    Some(table.len())
}

#[cfg(test)]
mod tests {
    use super::*;

    #[test]
    fn published_days() {
        for (date_asked, julian_day_number) in [
            ((2001, 1, 1), 2_451_911),
            ((2000, 1, 1), 2_451_545),
            ((1970, 1, 1), 2_440_588),
            ((1858, 11, 17), 2_400_001),
            ((1582, 10, 15), 2_299_161),
            ((1, 1, 1), 1_721_426),
            ((0, 3, 1), 1_721_120),
            ((-4713, 11, 24), 0),
        ] {
            let t = julian_day_number - 2_451_911 + 1;
            let (year, month, day) = date_asked;
            assert_eq!(date(t), Ok(date_asked));
            assert_eq!(instant(year, month, day), Ok(t), "{date_asked:?}");
        }
    }

    #[test]
    fn leap_years() {
        for year in [2000, 2004, 1600, 2400, 0, -4, -400] {
            assert!(is_leap(year), "{year}");
            assert_eq!(instant(year, 2, 30), Err(20));
        }
        for year in [2001, 1900, 2100, 1, -1, -100, -300] {
            assert!(!is_leap(year), "{year}");
            assert_eq!(instant(year, 2, 29), Err(20));
        }
    }

    #[test]
    fn a_date_that_does_not_exist_comes_first() {
        for (year, month, day) in [
            (i64::MAX, 0, 1),
            (i64::MIN, 13, 1),
            (i64::MAX, 2, 29),
            (i64::MAX, i64::MIN, i64::MAX),
            (i64::MIN, 1, i64::MIN),
        ] {
            assert_eq!(instant(year, month, day), Err(20));
        }
        assert_eq!(instant(i64::MAX, 2, 28), Err(14));
        assert_eq!(instant(i64::MIN, 2, 29), Err(14));
    }

    #[test]
    fn the_table() {
        let table = civil_table();
        assert_eq!(table.len(), TABLE_NUMBERS);
        assert_eq!(table[..12], [0, 0, 0, 0, 0, 0, 1, 0, 0, 31, 0, 0]);
        assert_eq!(table[12..18], [3, 0, 1, 12, 2, -3]);
        assert_eq!(table[54..], [3, 0, 8, 4800, 4790, 1, 1, 9, 0, 12, 0, 0]);
        let mut list = [7; TABLE_NUMBERS + 1];
        assert_eq!(civil_table_into(&mut list), Some(TABLE_NUMBERS));
        assert_eq!(list[TABLE_NUMBERS], 0);
        assert_eq!(civil_table_into(&mut list[..TABLE_NUMBERS - 1]), None);
        assert!(list[..TABLE_NUMBERS - 1].iter().all(|&number| number == 0));
    }
}
