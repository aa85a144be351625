//! Tables as they are typed in.

use std::fmt;
use std::str::FromStr;

use crate::{Error, Refused, Table, TEXT_MAX};

/// The text of a table, as [`sheet`](crate::sheet) takes it: a line for each entry, six numbers.
///
/// ```
/// let mut table = jogipahn::Table::new();
/// let days = table.bottom();
/// table.group(days, 7);
/// assert_eq!(table.to_string(), "0 0 0 0 0 0\n1 0 0 7 0 0\n");
/// ```
impl fmt::Display for Table {
    fn fmt(&self, f: &mut fmt::Formatter<'_>) -> fmt::Result {
        for entry in self.as_numbers().chunks(6) {
            let words: Vec<String> = entry.iter().map(i32::to_string).collect();
            writeln!(f, "{}", words.join(" "))?;
        }
        Ok(())
    }
}

/// The table of a text, by the rules of [`sheet`](crate::sheet).
///
/// This is plain code of this crate, which is tested beside the proved reader that `sheet` has.
///
/// ```
/// use jogipahn::{Error, Refused, Table};
///
/// let table: Table = "0 0 0 0 0 0\n1 0 0 7 0 0\n".parse()?;
/// assert_eq!(table.len(), 2);
/// let refused = "0 0 0 0 0 0\n1 0 0 07 0 0\n".parse::<Table>().unwrap_err();
/// assert_eq!(refused, Refused { error: Error::TextNotAllowed, entry: 1 });
/// # Ok::<(), Refused>(())
/// ```
///
/// # Errors
///
/// 19, with the first bad line from 0; 0 for a text above [`TEXT_MAX`] bytes.
impl FromStr for Table {
    type Err = Refused;

    fn from_str(text: &str) -> Result<Table, Refused> {
        let bad = |line| Refused {
            error: Error::TextNotAllowed,
            entry: line,
        };
        if text.len() > TEXT_MAX {
            return Err(bad(0));
        }
        let mut table = Table::new();
        for (number, line) in text.split_inclusive('\n').enumerate() {
            table.push(entry(line).ok_or(bad(number))?);
        }
        Ok(table)
    }
}

/// The entry of a line with its line feed.
fn entry(line: &str) -> Option<[i32; 6]> {
    let mut words = line.strip_suffix('\n')?.split(' ');
    let mut numbers = [0; 6];
    for number in &mut numbers {
        *number = numeral(words.next()?)?;
    }
    words.next().is_none().then_some(numbers)
}

/// The number that a word is the shortest writing of.
fn numeral(word: &str) -> Option<i32> {
    let number: i32 = word.parse().ok()?;
    (number.to_string() == word).then_some(number)
}
