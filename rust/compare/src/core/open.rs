//! Open maps and questions to them.

use jogipahn::{raw, Error, OpenMap};

use super::{code, code_beside, code_if_any, number, questions, DIRT};
use crate::second::open::words_for;
use crate::second::questions::Row;

/// The open map of a row, in a list that just holds it.
pub fn open_map(row: Row) -> Result<Vec<u64>, u32> {
    let mut words = vec![DIRT as u64; words_for(row.cells.len())];
    let answer = open_map_into(row, &mut words).map(|()| words);
    let made = questions::reader(row).open_map();
    assert_eq!(made.map(|map| map.words().to_vec()).map_err(number), answer);
    answer
}

/// As [`second::open::open_map_into`](crate::second::open::open_map_into).
pub fn open_map_into(row: Row, words: &mut [u64]) -> Result<(), u32> {
    match raw::open_map(questions::reader(row), words) {
        0 => Ok(()),
        -13 => Err(13),
        told => panic!("the core answered {told}, which means nothing"),
    }
}

/// The map of these words as the crate has it, which may be none.
fn map(words: &[u64], period: i64) -> Result<OpenMap, Error> {
    OpenMap::from_words(words.to_vec(), period)
}

pub fn count_open(words: &[u64], period: i64, s: i64, t: i64) -> Result<i64, u32> {
    let answer = map(words, period).and_then(|map| map.count(s..t));
    let told = raw::count_open(words, period, s, t);
    assert_eq!(told, answer.unwrap_or_else(code));
    answer.map_err(number)
}

pub fn next_open(words: &[u64], period: i64, x: i64) -> Result<i64, u32> {
    let answer = map(words, period).and_then(|map| map.next(x));
    let mut found = DIRT;
    let told = raw::next_open(words, period, x, &mut found);
    assert_eq!((told, found), code_beside(answer));
    answer.map_err(number)
}

pub fn last_open(words: &[u64], period: i64, x: i64) -> Result<i64, u32> {
    let answer = map(words, period).and_then(|map| map.last(x));
    let mut found = DIRT;
    let told = raw::last_open(words, period, x, &mut found);
    assert_eq!((told, found), code_beside(answer));
    answer.map_err(number)
}

pub fn nth_open(words: &[u64], period: i64, x: i64, steps: i64) -> Result<Option<i64>, u32> {
    let answer = map(words, period).and_then(|map| map.nth(x, steps));
    let mut found = DIRT;
    let told = raw::nth_open(words, period, x, steps, &mut found);
    assert_eq!((told, found), code_if_any(answer));
    answer.map_err(number)
}

pub fn between(words: &[u64], period: i64, x: i64, y: i64) -> Result<i64, u32> {
    let answer = map(words, period).and_then(|map| map.between(x, y));
    let mut number_left = DIRT;
    let told = raw::between(words, period, x, y, &mut number_left);
    assert_eq!((told, number_left), code_beside(answer));
    answer.map_err(number)
}
