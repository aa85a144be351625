//! A journal of tables in a file: Req 10 of document 02, where it is a book.

use std::ops::Range;

use super::sheet::{table, TEXT_LIMIT};

/// How many bytes a trailer has.
pub const TRAILER: usize = 6;

/// The longest record.
pub const RECORD_LIMIT: usize = TEXT_LIMIT + TRAILER;

/// What appending a text writes: the text and its trailer. Or the line for
/// which it is refused with 19.
pub fn record(text: &[u8]) -> Result<Vec<u8>, u32> {
    if text.is_empty() {
        return Err(0);
    }
    table(text)?;
    let mut record = text.to_vec();
    record.push(255);
    for place in 0..4 {
        record.push((text.len() >> (7 * place) & 127) as u8);
    }
    record.push(254);
    Ok(record)
}

/// Writes a record into a list, which is zero behind it, and says how long it
/// is. None where the list is too short; it is all zero then and after a
/// refusal.
pub fn record_into(text: &[u8], out: &mut [u8]) -> Result<Option<usize>, u32> {
    out.fill(0);
    let record = record(text)?;
    let Some(place) = out.get_mut(..record.len()) else {
        return Ok(None);
    };
    place.copy_from_slice(&record);
    Ok(Some(record.len()))
}

/// Where the last table's text stands in a file, if there is one.
pub fn last(book: &[u8]) -> Option<Range<usize>> {
    (0..=book.len()).rev().find_map(|end| pointed(&book[..end]))
}

/// The body that a trailer at the end of these bytes points back to.
fn pointed(bytes: &[u8]) -> Option<Range<usize>> {
    let (front, trailer) = bytes.split_last_chunk::<TRAILER>()?;
    let [255, lengths @ .., 254] = trailer else {
        return None;
    };
    if lengths.iter().any(|&byte| byte >= 128) {
        return None;
    }
    let weighed = lengths.iter().rev();
    let length = weighed.fold(0, |length, &byte| 128 * length + usize::from(byte));
    let fits = (1..=TEXT_LIMIT.min(front.len())).contains(&length);
    fits.then(|| front.len() - length..front.len())
}

#[cfg(test)]
mod tests {
    use super::*;

    const DAYS: &[u8] = b"0 0 0 0 0 0\n";

    #[test]
    fn records_by_their_bytes() {
        assert_eq!(record(DAYS).unwrap(), b"0 0 0 0 0 0\n\xff\x0c\0\0\0\xfe");
        let long = DAYS.repeat(341);
        assert_eq!(&record(&long).unwrap()[4_092..], b"\xff\x7c\x1f\0\0\xfe");
        let longest = [&DAYS.repeat(340)[..], b"0 0 0 0 0 10000\n"].concat();
        assert_eq!(&record(&longest).unwrap()[4_096..], b"\xff\0\x20\0\0\xfe");
        assert_eq!(record(b""), Err(0));
        assert_eq!(record(&DAYS.repeat(342)), Err(0));
        assert_eq!(record(b"0 0 0 0 0 0\n0 0 0 0 0\n"), Err(1));
        // A table that conversion would refuse may be kept.
        assert!(record(b"9 9 9 9 9 9\n").is_ok());
    }

    #[test]
    fn the_last_complete_trailer() {
        let days = record(DAYS).unwrap();
        let weeks = record(b"0 0 0 0 0 0\n1 0 0 7 0 0\n").unwrap();
        assert_eq!(last(b""), None);
        assert_eq!(last(&days), Some(0..12));
        let both = [&days[..], &weeks].concat();
        assert_eq!(last(&both), Some(18..42));
        for cut in 18..both.len() {
            assert_eq!(last(&both[..cut]), Some(0..12), "{cut}");
        }
        for cut in 0..18 {
            assert_eq!(last(&both[..cut]), None, "{cut}");
        }
        let behind = [&days[..17], &weeks].concat();
        assert_eq!(last(&behind), Some(17..41));
    }

    #[test]
    fn trailers_that_point_nowhere() {
        for (book, body) in [
            (&b"ab\xff\x02\0\0\0\xfe"[..], Some(0..2)),
            (b"ab\xff\x01\0\0\0\xfe", Some(1..2)),
            (b"ab\xff\0\0\0\0\xfe", None),
            (b"ab\xff\x03\0\0\0\xfe", None),
            (b"ab\xff\x82\0\0\0\xfe", None),
            (b"ab\xff\x02\0\0\xfe", None),
            (b"ab\xff\0\0\0\x02\xfe", None),
            (b"a\xff\x01\0\0\0\xfe\xff\x08\0\0\0\xfe", Some(0..1)),
        ] {
            assert_eq!(last(book), body, "{book:?}");
        }
        let mut book = vec![b'a'; 4_097];
        book.extend(b"\xff\0\x20\0\0\xfe");
        assert_eq!(last(&book), Some(1..4_097));
        book[4_098] = 1;
        assert_eq!(last(&book), None);
    }

    #[test]
    fn lists_that_are_too_short_stay_zero() {
        let mut out = [9; 20];
        assert_eq!(record_into(DAYS, &mut out), Ok(Some(18)));
        assert_eq!(out[12..], [255, 12, 0, 0, 0, 254, 0, 0]);
        assert_eq!(record_into(DAYS, &mut out[..17]), Ok(None));
        assert_eq!(out, *b"\0\0\0\0\0\0\0\0\0\0\0\0\0\0\0\0\0\xfe\0\0");
        assert_eq!(record_into(b"x", &mut out), Err(0));
        assert_eq!(out, [0; 20]);
    }
}
