//! The check of finished headings and rows.

use jogipahn::{raw, Fault, Table};

use super::conversion::records;
use super::numbers;
use crate::second::check::Verdict;

/// As [`second::check::check`](crate::second::check::check).
pub fn check(table: &[i32], headings: &[u32], pool: &[i32]) -> Verdict {
    let verdict = match raw::check(table, headings, pool) {
        0 => Verdict::Accepted,
        told @ 100..=1299 => Verdict::Refused(told as u32 / 100, told as u32 % 100),
        told @ -65..=-1 => Verdict::Wrong((-1 - told) as u32),
        told => panic!("the core answered {told}, which means nothing"),
    };
    // The crate's headings have no numbers left over.
    if let (headings, []) = headings.as_chunks() {
        assert_eq!(checked(table, headings, pool), verdict, "{table:?}");
    }
    verdict
}

fn checked(table: &[i32], headings: &[[u32; 4]], pool: &[i32]) -> Verdict {
    let table = Table::from_numbers(table);
    match jogipahn::check(&table, &records(headings), pool) {
        Ok(()) => Verdict::Accepted,
        Err(Fault::Refused(refused)) => {
            let (number, entry) = numbers(refused);
            Verdict::Refused(number, entry)
        }
        Err(Fault::Entry(entry)) => Verdict::Wrong(entry.index() as u32),
        Err(Fault::Rest) => Verdict::Wrong(table.len() as u32),
    }
}
