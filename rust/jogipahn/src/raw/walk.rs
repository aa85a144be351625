//! The conversion in steps.

#[rustfmt::skip]
extern "C" {
    fn jogipahn_walk_start(table: *const i32, n: usize, headings: *mut u32, m: usize, pool: *mut i32, p: usize,
                           state: *mut i64, s: usize) -> i64;
    fn jogipahn_walk_step(table: *const i32, n: usize, headings: *mut u32, m: usize, pool: *mut i32, p: usize,
                          state: *mut i64, s: usize) -> i64;
}

/// `jogipahn_walk_start`
pub fn walk_start(table: &[i32], headings: &mut [u32], pool: &mut [i32], state: &mut [i64]) -> i64 {
    // SAFETY: a slice, and three that are borrowed mutably.
    unsafe {
        jogipahn_walk_start(
            table.as_ptr(),
            table.len(),
            headings.as_mut_ptr(),
            headings.len(),
            pool.as_mut_ptr(),
            pool.len(),
            state.as_mut_ptr(),
            state.len(),
        )
    }
}

/// `jogipahn_walk_step`
pub fn walk_step(table: &[i32], headings: &mut [u32], pool: &mut [i32], state: &mut [i64]) -> i64 {
    // SAFETY: as for the start.
    unsafe {
        jogipahn_walk_step(
            table.as_ptr(),
            table.len(),
            headings.as_mut_ptr(),
            headings.len(),
            pool.as_mut_ptr(),
            pool.len(),
            state.as_mut_ptr(),
            state.len(),
        )
    }
}
