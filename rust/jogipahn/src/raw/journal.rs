//! The journal of tables.

extern "C" {
    fn jogipahn_journal_last(book: *const u8, n: usize, start: *mut usize) -> i64;
    fn jogipahn_journal_record(text: *const u8, n: usize, out: *mut u8, m: usize) -> i64;
}

/// `jogipahn_journal_last`
pub fn journal_last(book: &[u8], start: &mut usize) -> i64 {
    // SAFETY: a slice, and a reference.
    unsafe { jogipahn_journal_last(book.as_ptr(), book.len(), start) }
}

/// `jogipahn_journal_record`
pub fn journal_record(text: &[u8], out: &mut [u8]) -> i64 {
    // SAFETY: a slice, and one that is borrowed mutably.
    unsafe { jogipahn_journal_record(text.as_ptr(), text.len(), out.as_mut_ptr(), out.len()) }
}
