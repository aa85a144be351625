//! The civil table, and dates.

use jogipahn::{civil, raw};

use super::{code, code_beside, number, DIRT};
use crate::second::dates::{Date, TABLE_NUMBERS};

/// The civil table, in a list that just holds it.
pub fn civil_table() -> Vec<i32> {
    let mut table = vec![DIRT as i32; TABLE_NUMBERS];
    let length = civil_table_into(&mut table);
    assert_eq!(length, Some(TABLE_NUMBERS));
    assert_eq!(table, civil::table().as_numbers());
    table
}

/// As [`second::dates::civil_table_into`](crate::second::dates::civil_table_into).
pub fn civil_table_into(list: &mut [i32]) -> Option<usize> {
    let told = raw::civil_table(list);
    match usize::try_from(told) {
        Ok(length) if length <= list.len() => Some(length),
        _ if told == -1 => None,
        _ => panic!("the core answered {told}, which means nothing"),
    }
}

pub fn date(t: i64) -> Result<Date, u32> {
    let numbers = |date: jogipahn::Date| (date.year, date.month, date.day);
    let answer = civil::date(t).map(numbers);
    let mut left = jogipahn::Date::new(DIRT, DIRT, DIRT);
    let told = raw::date(t, &mut left);
    assert_eq!(told, answer.map_or_else(code, |_| 0));
    assert_eq!(numbers(left), answer.unwrap_or((0, 0, 0)));
    answer.map_err(number)
}

pub fn instant(year: i64, month: i64, day: i64) -> Result<i64, u32> {
    let date = jogipahn::Date::new(year, month, day);
    let answer = civil::instant(date);
    let mut t = DIRT;
    let told = raw::instant(date, &mut t);
    assert_eq!((told, t), code_beside(answer));
    answer.map_err(number)
}
