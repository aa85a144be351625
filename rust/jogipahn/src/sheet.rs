//! Typed tables and their sheets.

use crate::error::unknown;
use crate::raw;

/// Bytes that are enough for any sheet.
const SHEET_MAX: usize = 49_792;

/// The sheet of a table that is typed in: a line for each entry with period, distance and cells, "." for none.
///
/// The text has a line for each entry, six decimal numbers with a single space between, each line ended by a line
/// feed; no plus sign, no leading zeros, no "-0". It has up to [`TEXT_MAX`](crate::TEXT_MAX) bytes, and its rows a
/// pool of 4,096 cells. A refusal is a sheet of one line, its number and its entry; 19, for text that breaks these
/// rules, has the first bad line from 0 (0 for the length, which is judged first).
///
/// ```
/// use jogipahn::sheet;
///
/// assert_eq!(sheet("0 0 0 0 0 0\n1 0 0 7 0 0\n"), "1 1 0\n7 1 0 1 1 1 1 1 1\n");
/// assert_eq!(sheet("0 0 0 0 0 0\n1 0 0 7 0\n"), "refused 19 at 1\n");
/// assert_eq!(sheet(b""), "refused 1 at 0\n");
/// ```
#[doc(alias = "jogipahn_sheet")]
pub fn sheet(text: impl AsRef<[u8]>) -> String {
    let mut out = vec![0; SHEET_MAX];
    let answer = raw::sheet(text.as_ref(), &mut out);
    match usize::try_from(answer) {
        Ok(length) => out.truncate(length),
        Err(_) => unknown(answer),
    }
    String::from_utf8_lossy(&out).into_owned()
}
