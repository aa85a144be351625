//! A sheet from a typed table: Req 01 of document 02.

use super::conversion::convert;
use super::{EMPTY, ENTRY_LIMIT, ENTRY_NUMBERS, HEADING_NUMBERS};

/// The longest text.
pub const TEXT_LIMIT: usize = 4_096;

/// The pool's cells.
pub const SHEET_CELLS: usize = 4_096;

/// The longest sheet: a cell takes a space and at most 11 characters, and a
/// line begins with two numbers of at most four digits, has a space between
/// them and ends with a line feed.
pub const SHEET_LIMIT: usize = 12 * SHEET_CELLS + 10 * ENTRY_LIMIT;

/// The refusal of a text.
const BAD_TEXT: u32 = 19;

/// What the program prints for a text on its standard input: a line for each
/// entry, or one for the refusal.
pub fn sheet(text: &[u8]) -> Vec<u8> {
    let printed = match table(text) {
        Ok(table) => rows(&table),
        Err(line) => Err((BAD_TEXT, line)),
    };
    printed
        .unwrap_or_else(|(number, place)| format!("refused {number} at {place}\n"))
        .into_bytes()
}

/// Writes the sheet into a list, which is zero behind it, and says how long it
/// is. None, and zeros, where the list is too short.
pub fn sheet_into(text: &[u8], out: &mut [u8]) -> Option<usize> {
    out.fill(0);
    let sheet = sheet(text);
    let place = out.get_mut(..sheet.len())?;
    place.copy_from_slice(&sheet);
    Some(sheet.len())
}

/// The numbers of all lines, or the first line that is bad: 0 if the text is
/// too long.
pub(super) fn table(text: &[u8]) -> Result<Vec<i32>, u32> {
    if text.len() > TEXT_LIMIT {
        return Err(0);
    }
    let mut table = Vec::new();
    let lines = text.split_inclusive(|&byte| byte == b'\n');
    for (place, line) in (0u32..).zip(lines) {
        table.extend(entry(line).ok_or(place)?);
    }
    Ok(table)
}

/// The six numbers of a line with its line feed.
fn entry(line: &[u8]) -> Option<[i32; ENTRY_NUMBERS]> {
    let mut rest = line;
    let mut numbers = [0; ENTRY_NUMBERS];
    for (place, number) in numbers.iter_mut().enumerate() {
        let behind = if place + 1 < ENTRY_NUMBERS {
            b' '
        } else {
            b'\n'
        };
        let end = rest.iter().position(|&byte| byte == behind)?;
        *number = decimal(&rest[..end])?;
        rest = &rest[end + 1..];
    }
    rest.is_empty().then_some(numbers)
}

/// A decimal number of 32 bits: no plus sign, no leading zeros, no "-0".
fn decimal(word: &[u8]) -> Option<i32> {
    let (sign, digits) = match word {
        [b'-', digits @ ..] => (-1, digits),
        digits => (1, digits),
    };
    let well_formed = match digits {
        [] => false,
        [b'0'] => sign == 1,
        [first, ..] => *first != b'0' && digits.iter().all(u8::is_ascii_digit),
    };
    // Ten digits are enough for 32 bits, and few enough for 64.
    if !well_formed || digits.len() > 10 {
        return None;
    }
    let size = digits
        .iter()
        .fold(0, |size, digit| 10 * size + i64::from(digit - b'0'));
    i32::try_from(sign * size).ok()
}

/// The lines of the rows, or the refusal.
fn rows(table: &[i32]) -> Result<String, (u32, u32)> {
    let mut headings = [0; HEADING_NUMBERS * ENTRY_LIMIT];
    let mut pool = [EMPTY; SHEET_CELLS];
    convert(table, &mut headings, &mut pool)?;
    let entries = table.len() / ENTRY_NUMBERS;
    let mut text = String::new();
    for heading in headings.chunks_exact(HEADING_NUMBERS).take(entries) {
        let &[start, period, distance, _] = heading else {
            unreachable!()
        };
        text += &format!("{period} {distance}");
        for &cell in &pool[start as usize..(start + period) as usize] {
            match cell {
                EMPTY => text += " .",
                label => text += &format!(" {label}"),
            }
        }
        text.push('\n');
    }
    Ok(text)
}

#[cfg(test)]
mod tests {
    use super::*;

    fn printed(text: &str) -> String {
        String::from_utf8(sheet(text.as_bytes())).unwrap()
    }

    #[test]
    fn the_two_lines_of_the_request() {
        let text = "0 0 0 0 0 0\n1 0 0 7 0 0\n";
        assert_eq!(printed(text), "1 1 0\n7 1 0 1 1 1 1 1 1\n");
    }

    #[test]
    fn decimal_numbers() {
        for number in [0, 1, -1, 9, 10, -10, 2_147_483_647, -2_147_483_648] {
            assert_eq!(decimal(number.to_string().as_bytes()), Some(number));
        }
        for word in [
            "",
            "-",
            "+1",
            "00",
            "01",
            "-01",
            "-0",
            "--1",
            " 1",
            "1 ",
            "1.0",
            "1-",
            "0x1",
            "a",
            "2147483648",
            "-2147483649",
            "4294967296",
            "99999999999",
            "18446744073709551617",
        ] {
            assert_eq!(decimal(word.as_bytes()), None, "{word:?}");
        }
    }

    #[test]
    fn the_first_bad_line_is_named() {
        let good = "0 0 0 0 0 0\n";
        for (behind, line) in [
            ("\n", 1),
            ("0 0 0 0 0 0", 1),
            ("0 0 0 0 0\n", 1),
            ("0 0 0 0 0 0 0\n", 1),
            ("0 0 0 0 0 0 \n", 1),
            (" 0 0 0 0 0 0\n", 1),
            ("0 0 0 0 0 0\r\n", 1),
            ("0 0 0 0\n0 0\n", 1),
            ("9 9 9 9 9 9\n0 0 0 0 0 00\n\n", 2),
        ] {
            let text = format!("{good}{behind}");
            assert_eq!(printed(&text), format!("refused 19 at {line}\n"), "{text}");
        }
        // After the rules for text it is conversion's turn.
        assert_eq!(printed(&format!("{good}9 9 9 9 9 9\n")), "refused 5 at 1\n");
        assert_eq!(printed(""), "refused 1 at 0\n");
    }

    #[test]
    fn the_length_is_judged_first() {
        // Line 0 is good and line 1 bad, and both don't matter.
        let text = format!("0 0 0 0 0 0\n{}", "x".repeat(4_084));
        assert_eq!(printed(&text), "refused 19 at 1\n");
        assert_eq!(printed(&format!("{text}x")), "refused 19 at 0\n");
        let lines = "0 0 0 0 0 0\n".repeat(341);
        assert_eq!(printed(&lines), "refused 1 at 0\n");
        assert_eq!(printed(&(lines + "0 0 0 0 0 0\n")), "refused 19 at 0\n");
    }

    #[test]
    fn lists_that_are_too_short_stay_zero() {
        let text = b"0 0 0 0 0 0\n";
        let mut out = [9; 8];
        assert_eq!(sheet_into(text, &mut out), Some(6));
        assert_eq!(&out, b"1 1 0\n\0\0");
        assert_eq!(sheet_into(text, &mut out[..5]), None);
        assert_eq!(&out, b"\0\0\0\0\0\n\0\0");
        assert_eq!(sheet_into(text, &mut []), None);
    }

    #[test]
    fn no_sheet_is_longer_than_the_limit() {
        assert_eq!(SHEET_LIMIT, 49_792);
        // A cell of -1,000,000,000 and 2,046 of -999,999,999.
        let text = "0 0 0 0 0 0\n1 0 0 2047 0 0\n2 1 0 -1000000000 0 0\n";
        let length = sheet(text.as_bytes()).len();
        assert_eq!(length, 6 + (7 + 2 * 2047) + (7 + 12 + 11 * 2046));
        assert!(length <= SHEET_LIMIT);
    }
}
