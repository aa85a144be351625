//! The C functions of the archive, as functions over slices: all the `unsafe` code of the crate.
//!
//! They take any numbers, and lists of any lengths, and answer the number that `include/jogipahn.h` says; what a C
//! function writes through a pointer is written through a reference, after a refusal too. The rest of the crate is
//! over them. They are hidden, and no part of what the crate promises: they are there for those who compare the
//! archive with something else, and so need to see what it answers and leaves to the last number.
//!
//! What the header asks of a pointer holds of every slice and reference: it is aligned, not null, and points to as
//! many numbers as its length says, at most `isize::MAX` bytes of them. What is written to is borrowed mutably, and
//! so overlaps nothing else that is handed over.

use crate::{Date, Figures, Heading, Placed, Reader};

mod batches;
#[cfg(feature = "check")]
mod check;
#[cfg(feature = "journal")]
mod journal;
#[cfg(feature = "walk")]
mod walk;

pub use batches::{may_be_late_each, up_granules, up_instants};
#[cfg(feature = "check")]
pub use check::check;
#[cfg(feature = "journal")]
pub use journal::{journal_last, journal_record};
#[cfg(feature = "walk")]
pub use walk::{walk_start, walk_step};

type Cells = *const i32;
type Words = *const u64;
type Out = *mut i64;

#[rustfmt::skip]
extern "C" {
    fn jogipahn_convert(table: *const i32, n: usize, headings: *mut u32, m: usize, pool: *mut i32, p: usize) -> i64;
    fn jogipahn_sheet(text: *const u8, n: usize, out: *mut u8, m: usize) -> i64;
    fn jogipahn_civil_table(table: *mut i32, n: usize) -> i64;
    fn jogipahn_date(t: i64, year: Out, month: Out, day: Out) -> i64;
    fn jogipahn_instant(year: i64, month: i64, day: i64, t: Out) -> i64;
    fn jogipahn_up_instant(cells: Cells, len: usize, period: i64, distance: i64, t: i64, label: Out, place: Out) -> i64;
    fn jogipahn_up_granule(g_cells: Cells, g_len: usize, g_period: i64, g_distance: i64,
                           h_cells: Cells, h_len: usize, h_period: i64, h_distance: i64, z: i64, label: Out) -> i64;
    fn jogipahn_down(h_cells: Cells, h_len: usize, h_period: i64, h_distance: i64,
                     g_cells: Cells, g_len: usize, g_period: i64, g_distance: i64, z: i64,
                     parts: Out, parts_len: usize) -> i64;
    fn jogipahn_figures(cells: Cells, len: usize, period: i64, distance: i64, granules: i64,
                        openness: *mut f64, mean_length: *mut f64, mean_spacing: *mut f64) -> i64;
    fn jogipahn_least_period(cells: Cells, len: usize, period: i64, distance: i64, tried: Out) -> i64;
    fn jogipahn_may_be_late(cells: Cells, len: usize, period: i64, distance: i64,
                            z: i64, d: i64, rule: i64, amount: f64) -> i64;
    fn jogipahn_open_map(cells: Cells, len: usize, period: i64, distance: i64, words: *mut u64, n: usize) -> i64;
    fn jogipahn_count_open(words: Words, n: usize, period: i64, s: i64, t: i64) -> i64;
    fn jogipahn_next_open(words: Words, n: usize, period: i64, x: i64, found: Out) -> i64;
    fn jogipahn_last_open(words: Words, n: usize, period: i64, x: i64, found: Out) -> i64;
    fn jogipahn_nth_open(words: Words, n: usize, period: i64, x: i64, steps: i64, found: Out) -> i64;
    fn jogipahn_between(words: Words, n: usize, period: i64, x: i64, y: i64, number: Out) -> i64;
}

/// Headings as the archive takes them, four numbers each.
#[cfg(feature = "check")]
pub(crate) fn numbers(headings: &[Heading]) -> &[u32] {
    // SAFETY: a heading is four numbers of 32 bits, one behind the other; they stay borrowed.
    unsafe { std::slice::from_raw_parts(headings.as_ptr().cast(), 4 * headings.len()) }
}

/// The same, to be written to.
pub(crate) fn numbers_mut(headings: &mut [Heading]) -> &mut [u32] {
    // SAFETY: as above, they stay borrowed mutably, and any four numbers are a heading.
    unsafe { std::slice::from_raw_parts_mut(headings.as_mut_ptr().cast(), 4 * headings.len()) }
}

/// `jogipahn_convert`
pub fn convert(table: &[i32], headings: &mut [u32], pool: &mut [i32]) -> i64 {
    // SAFETY: a slice, and two that are borrowed mutably.
    unsafe {
        jogipahn_convert(
            table.as_ptr(),
            table.len(),
            headings.as_mut_ptr(),
            headings.len(),
            pool.as_mut_ptr(),
            pool.len(),
        )
    }
}

/// `jogipahn_sheet`
pub fn sheet(text: &[u8], out: &mut [u8]) -> i64 {
    // SAFETY: a slice, and one that is borrowed mutably.
    unsafe { jogipahn_sheet(text.as_ptr(), text.len(), out.as_mut_ptr(), out.len()) }
}

/// `jogipahn_civil_table`
pub fn civil_table(table: &mut [i32]) -> i64 {
    // SAFETY: a slice that is borrowed mutably.
    unsafe { jogipahn_civil_table(table.as_mut_ptr(), table.len()) }
}

/// `jogipahn_date`
pub fn date(t: i64, date: &mut Date) -> i64 {
    // SAFETY: references to three numbers.
    unsafe { jogipahn_date(t, &mut date.year, &mut date.month, &mut date.day) }
}

/// `jogipahn_instant`
pub fn instant(date: Date, t: &mut i64) -> i64 {
    // SAFETY: a reference.
    unsafe { jogipahn_instant(date.year, date.month, date.day, t) }
}

/// `jogipahn_up_instant`
pub fn up_instant(row: Reader<'_>, t: i64, placed: &mut Placed) -> i64 {
    // SAFETY: a slice, and references to two numbers.
    unsafe {
        jogipahn_up_instant(
            row.cells().as_ptr(),
            row.cells().len(),
            row.period(),
            row.distance(),
            t,
            &mut placed.label,
            &mut placed.place,
        )
    }
}

/// `jogipahn_up_granule`
pub fn up_granule(g: Reader<'_>, h: Reader<'_>, z: i64, label: &mut i64) -> i64 {
    // SAFETY: two slices, which are only read, and a reference.
    unsafe {
        jogipahn_up_granule(
            g.cells().as_ptr(),
            g.cells().len(),
            g.period(),
            g.distance(),
            h.cells().as_ptr(),
            h.cells().len(),
            h.period(),
            h.distance(),
            z,
            label,
        )
    }
}

/// `jogipahn_down`
pub fn down(h: Reader<'_>, g: Reader<'_>, z: i64, parts: &mut [i64]) -> i64 {
    // SAFETY: two slices, which are only read, and one that is borrowed mutably.
    unsafe {
        jogipahn_down(
            h.cells().as_ptr(),
            h.cells().len(),
            h.period(),
            h.distance(),
            g.cells().as_ptr(),
            g.cells().len(),
            g.period(),
            g.distance(),
            z,
            parts.as_mut_ptr(),
            parts.len(),
        )
    }
}

/// `jogipahn_figures`
pub fn figures(row: Reader<'_>, slots: i64, figures: &mut Figures) -> i64 {
    // SAFETY: a slice, and references to three numbers.
    unsafe {
        jogipahn_figures(
            row.cells().as_ptr(),
            row.cells().len(),
            row.period(),
            row.distance(),
            slots,
            &mut figures.openness,
            &mut figures.mean_length,
            &mut figures.mean_spacing,
        )
    }
}

/// `jogipahn_least_period`
pub fn least_period(row: Reader<'_>, tried: &mut i64) -> i64 {
    // SAFETY: a slice, and a reference.
    unsafe {
        jogipahn_least_period(
            row.cells().as_ptr(),
            row.cells().len(),
            row.period(),
            row.distance(),
            tried,
        )
    }
}

/// `jogipahn_may_be_late`
pub fn may_be_late(row: Reader<'_>, z: i64, d: i64, rule: i64, amount: f64) -> i64 {
    // SAFETY: a slice.
    unsafe {
        jogipahn_may_be_late(
            row.cells().as_ptr(),
            row.cells().len(),
            row.period(),
            row.distance(),
            z,
            d,
            rule,
            amount,
        )
    }
}

/// `jogipahn_open_map`
pub fn open_map(row: Reader<'_>, words: &mut [u64]) -> i64 {
    // SAFETY: a slice, and one that is borrowed mutably.
    unsafe {
        jogipahn_open_map(
            row.cells().as_ptr(),
            row.cells().len(),
            row.period(),
            row.distance(),
            words.as_mut_ptr(),
            words.len(),
        )
    }
}

/// `jogipahn_count_open`
#[inline]
pub fn count_open(words: &[u64], period: i64, s: i64, t: i64) -> i64 {
    // SAFETY: a slice.
    unsafe { jogipahn_count_open(words.as_ptr(), words.len(), period, s, t) }
}

/// `jogipahn_next_open`
#[inline]
pub fn next_open(words: &[u64], period: i64, x: i64, found: &mut i64) -> i64 {
    // SAFETY: a slice, and a reference.
    unsafe { jogipahn_next_open(words.as_ptr(), words.len(), period, x, found) }
}

/// `jogipahn_last_open`
#[inline]
pub fn last_open(words: &[u64], period: i64, x: i64, found: &mut i64) -> i64 {
    // SAFETY: a slice, and a reference.
    unsafe { jogipahn_last_open(words.as_ptr(), words.len(), period, x, found) }
}

/// `jogipahn_nth_open`
#[inline]
pub fn nth_open(words: &[u64], period: i64, x: i64, steps: i64, found: &mut i64) -> i64 {
    // SAFETY: a slice, and a reference.
    unsafe { jogipahn_nth_open(words.as_ptr(), words.len(), period, x, steps, found) }
}

/// `jogipahn_between`
#[inline]
pub fn between(words: &[u64], period: i64, x: i64, y: i64, number: &mut i64) -> i64 {
    // SAFETY: a slice, and a reference.
    unsafe { jogipahn_between(words.as_ptr(), words.len(), period, x, y, number) }
}
