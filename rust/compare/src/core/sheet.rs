//! The sheet of a typed table.

use jogipahn::raw;

use crate::second::sheet::SHEET_LIMIT;

/// The sheet of a text; a list of [`SHEET_LIMIT`] bytes holds any.
pub fn sheet(text: &[u8]) -> Vec<u8> {
    let mut out = vec![b'?'; SHEET_LIMIT];
    let length = sheet_into(text, &mut out).expect("no sheet is longer than the list");
    assert!(out[length..].iter().all(|&byte| byte == 0));
    out.truncate(length);
    assert!(out == jogipahn::sheet(text).as_bytes());
    out
}

/// As [`second::sheet::sheet_into`](crate::second::sheet::sheet_into).
pub fn sheet_into(text: &[u8], out: &mut [u8]) -> Option<usize> {
    let told = raw::sheet(text, out);
    match usize::try_from(told) {
        Ok(length) if length <= out.len() => Some(length),
        _ if told == -1 => None,
        _ => panic!("the core answered {told}, which means nothing"),
    }
}
