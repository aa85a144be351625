//! The ordinary way: over a row's cells, one after the other. Only whole turns
//! are multiplied.

use jogipahn_compare::second::EMPTY;

fn open(cells: &[i32]) -> i64 {
    cells.iter().filter(|&&cell| cell != EMPTY).count() as i64
}

#[inline(never)]
pub fn count(cells: &[i32], s: i64, t: i64) -> i64 {
    let period = cells.len() as i64;
    let turns = (t - s) / period;
    let first = s.rem_euclid(period) as usize;
    let end = first + ((t - s) % period) as usize;
    let rest = match end.checked_sub(cells.len()) {
        Some(end) => open(&cells[first..]) + open(&cells[..end]),
        None => open(&cells[first..end]),
    };
    // Inside a turn there is no need to know what a whole one has.
    rest + if turns > 0 { turns * open(cells) } else { 0 }
}

#[inline(never)]
pub fn next(cells: &[i32], x: i64) -> i64 {
    let mut t = x + 1;
    let mut place = t.rem_euclid(cells.len() as i64) as usize;
    while cells[place] == EMPTY {
        t += 1;
        place += 1;
        if place == cells.len() {
            place = 0;
        }
    }
    t
}

#[inline(never)]
pub fn last(cells: &[i32], x: i64) -> i64 {
    let mut t = x - 1;
    let mut place = t.rem_euclid(cells.len() as i64) as usize;
    while cells[place] == EMPTY {
        t -= 1;
        place = if place == 0 { cells.len() } else { place } - 1;
    }
    t
}
