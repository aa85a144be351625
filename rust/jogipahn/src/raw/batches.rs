//! Questions in batches.

use super::{Cells, Out};
use crate::Reader;

type Asked = *const i64;

#[rustfmt::skip]
extern "C" {
    fn jogipahn_up_instants(cells: Cells, len: usize, period: i64, distance: i64, ts: Asked, n: usize,
                            codes: Out, codes_len: usize, labels: Out, labels_len: usize,
                            places: Out, places_len: usize) -> i64;
    fn jogipahn_up_granules(g_cells: Cells, g_len: usize, g_period: i64, g_distance: i64,
                            h_cells: Cells, h_len: usize, h_period: i64, h_distance: i64, zs: Asked, n: usize,
                            codes: Out, codes_len: usize, labels: Out, labels_len: usize) -> i64;
    fn jogipahn_may_be_late_each(cells: Cells, len: usize, period: i64, distance: i64, zs: Asked, n: usize,
                                 d: i64, rule: i64, amount: f64, codes: Out, codes_len: usize) -> i64;
}

/// `jogipahn_up_instants`
pub fn up_instants(
    row: Reader<'_>,
    ts: &[i64],
    codes: &mut [i64],
    labels: &mut [i64],
    places: &mut [i64],
) -> i64 {
    // SAFETY: two slices, which are only read, and three that are borrowed mutably.
    unsafe {
        jogipahn_up_instants(
            row.cells().as_ptr(),
            row.cells().len(),
            row.period(),
            row.distance(),
            ts.as_ptr(),
            ts.len(),
            codes.as_mut_ptr(),
            codes.len(),
            labels.as_mut_ptr(),
            labels.len(),
            places.as_mut_ptr(),
            places.len(),
        )
    }
}

/// `jogipahn_up_granules`
pub fn up_granules(
    g: Reader<'_>,
    h: Reader<'_>,
    zs: &[i64],
    codes: &mut [i64],
    labels: &mut [i64],
) -> i64 {
    // SAFETY: three slices, which are only read, and two that are borrowed mutably.
    unsafe {
        jogipahn_up_granules(
            g.cells().as_ptr(),
            g.cells().len(),
            g.period(),
            g.distance(),
            h.cells().as_ptr(),
            h.cells().len(),
            h.period(),
            h.distance(),
            zs.as_ptr(),
            zs.len(),
            codes.as_mut_ptr(),
            codes.len(),
            labels.as_mut_ptr(),
            labels.len(),
        )
    }
}

/// `jogipahn_may_be_late_each`
pub fn may_be_late_each(
    row: Reader<'_>,
    zs: &[i64],
    d: i64,
    rule: i64,
    amount: f64,
    codes: &mut [i64],
) -> i64 {
    // SAFETY: two slices, which are only read, and one that is borrowed mutably.
    unsafe {
        jogipahn_may_be_late_each(
            row.cells().as_ptr(),
            row.cells().len(),
            row.period(),
            row.distance(),
            zs.as_ptr(),
            zs.len(),
            d,
            rule,
            amount,
            codes.as_mut_ptr(),
            codes.len(),
        )
    }
}
