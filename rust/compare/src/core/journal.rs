//! A journal: its last table, and what an append writes.

use std::ops::Range;

use jogipahn::{journal, raw};

use super::numbers;

/// As [`second::journal::last`](crate::second::journal::last).
pub fn journal_last(book: &[u8]) -> Option<Range<usize>> {
    let mut start = 0x5EED_5EED;
    let told = raw::journal_last(book, &mut start);
    let place = match usize::try_from(told) {
        Ok(0) => {
            assert_eq!(start, 0, "a start beside no table");
            None
        }
        Ok(length) => Some(start..start + length),
        Err(_) => panic!("the core answered {told}, which means nothing"),
    };
    assert_eq!(journal::last(book), place.clone().map(|place| &book[place]));
    place
}

/// As [`second::journal::record_into`](crate::second::journal::record_into).
pub fn journal_record_into(text: &[u8], out: &mut [u8]) -> Result<Option<usize>, u32> {
    let told = raw::journal_record(text, out);
    let answer = match told {
        0.. => Ok(Some(told as usize)),
        -1 => Ok(None),
        -2_300..=-1_900 => Err((-told - 1_900) as u32),
        _ => panic!("the core answered {told}, which means nothing"),
    };
    // The crate's list is long enough.
    match (answer, journal::record(text)) {
        (Ok(Some(length)), Ok(record)) => assert_eq!(out[..length], record),
        (Ok(None), Ok(record)) => assert!(out.len() < record.len()),
        (Err(line), Err(refused)) => assert_eq!(numbers(refused), (19, line)),
        (answer, record) => panic!("{answer:?} beside {record:?}"),
    }
    answer
}
