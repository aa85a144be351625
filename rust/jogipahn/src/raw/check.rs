//! The check of finished rows.

#[rustfmt::skip]
extern "C" {
    fn jogipahn_check(table: *const i32, n: usize, headings: *const u32, m: usize, pool: *const i32, p: usize) -> i64;
}

/// `jogipahn_check`
pub fn check(table: &[i32], headings: &[u32], pool: &[i32]) -> i64 {
    // SAFETY: three slices, which are only read.
    unsafe {
        jogipahn_check(
            table.as_ptr(),
            table.len(),
            headings.as_ptr(),
            headings.len(),
            pool.as_ptr(),
            pool.len(),
        )
    }
}
