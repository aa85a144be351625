//! Typed tables: what this crate reads and writes, beside the proved reader of `sheet`.

use jogipahn::{civil, sheet, Refused, Table};

const TEXT: &str = "0 0 0 0 0 0\n1 0 0 7 0 0\n6 0 1 1 5 0\n2 2 0 -12 0 0\n";

/// The line of a text that `sheet` refuses with 19.
fn bad_line(text: &str) -> Option<usize> {
    let sheet = sheet(text);
    let line = sheet.strip_prefix("refused 19 at ")?;
    line.trim_end().parse().ok()
}

/// Asserts that both readers find the same.
fn compare(text: &str) -> bool {
    let read = text.parse::<Table>();
    match (&read, bad_line(text)) {
        (Ok(table), None) => assert_eq!(table.to_string(), text),
        (Err(Refused { error, entry }), Some(line)) => {
            assert_eq!((error.number(), *entry), (19, line), "{text:?}");
        }
        (read, line) => panic!("{text:?}: {read:?} beside {line:?}"),
    }
    read.is_ok()
}

#[test]
fn every_change_of_one_byte() {
    let (mut good, mut bad) = (0, 0);
    for at in 0..=TEXT.len() {
        for byte in [
            " ", "\n", "0", "1", "9", "-", "+", ".", "\r", "\t", "\0", "a", "é", "",
        ] {
            let (before, after) = TEXT.split_at(at);
            let rest = after.get(1..).unwrap_or("");
            for text in [
                format!("{before}{byte}{after}"),
                format!("{before}{byte}{rest}"),
            ] {
                match compare(&text) {
                    true => good += 1,
                    false => bad += 1,
                }
            }
        }
    }
    assert!(good > 100 && bad > 100, "{good} good, {bad} bad");
}

#[test]
fn numbers_and_lengths_at_their_limits() {
    for number in [
        "2147483647",
        "-2147483648",
        "2147483648",
        "-2147483649",
        "99999999999999999999",
        "-0",
        "00",
    ] {
        compare(&format!("{number} 0 0 0 0 0\n"));
    }
    compare("");
    for length in [4096, 4097] {
        let mut text = "0 0 0 0 0 0\n".repeat(341);
        text.push_str(&"1".repeat(length - text.len()));
        assert_eq!(text.len(), length);
        assert!(!compare(&text));
    }
}

#[test]
fn a_sheet_has_the_lines_of_the_rows() -> Result<(), Refused> {
    let table: Table = TEXT.parse()?;
    let rows = table.convert(4096)?;
    let lines: String = rows.iter().map(|row| format!("{row}\n")).collect();
    assert_eq!(sheet(TEXT), lines);
    let civil = civil::table();
    let Refused { error, entry } = civil.convert(4096).unwrap_err();
    let line = format!("refused {} at {entry}\n", error.number());
    assert_eq!(sheet(civil.to_string()), line);
    Ok(())
}
