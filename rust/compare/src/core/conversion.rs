//! The conversion of a table.

use jogipahn::{raw, Heading, Headings, Table};

use super::{numbers, DIRT};
use crate::second::HEADING_NUMBERS;

pub fn convert(table: &[i32], headings: &mut [u32], pool: &mut [i32]) -> Result<(), (u32, u32)> {
    let answer = match raw::convert(table, headings, pool) {
        0 => Ok(()),
        told @ 100..=1299 => Err((told as u32 / 100, told as u32 % 100)),
        told => panic!("the core answered {told}, which means nothing"),
    };
    // The same in the crate's headings; numbers that are left over make none.
    let (headings, _) = headings.as_chunks();
    let mut records = records(&vec![[DIRT as u32; HEADING_NUMBERS]; headings.len()]);
    let mut cells = vec![DIRT as i32; pool.len()];
    let table = Table::from_numbers(table);
    let converted = table.convert_into(&mut records, &mut cells);
    assert_eq!(converted.map_err(numbers), answer, "{table}");
    assert!(records == self::records(headings), "{table}");
    assert!(cells == pool, "{table}");
    answer
}

/// Headings as the crate has them.
pub fn records(headings: &[[u32; HEADING_NUMBERS]]) -> Headings {
    let record = |&[start, period, distance, slots]: &[u32; HEADING_NUMBERS]| Heading {
        start,
        period,
        distance,
        slots,
    };
    Headings::from(headings.iter().map(record).collect::<Vec<_>>())
}
