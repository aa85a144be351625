//! The second implementation's sheets against Req 01's words taken one by one.

use std::collections::BTreeMap;

use jogipahn_compare::random::Random;
use jogipahn_compare::second::convert;
use jogipahn_compare::second::sheet::{sheet, sheet_into, SHEET_LIMIT};
use jogipahn_compare::texts::{self, stored};

/// "Six decimal numbers with a single space between. No plus sign, no leading
/// zeros, no -0": each word is what its number is written as.
fn numbers(line: &str) -> Option<Vec<i32>> {
    let words: Vec<&str> = line.split(' ').collect();
    let numbers: Vec<i32> = words.iter().filter_map(|word| word.parse().ok()).collect();
    let written: Vec<String> = numbers.iter().map(i32::to_string).collect();
    (words.len() == 6 && words == written).then_some(numbers)
}

/// The lines of a text, "each ended by a line feed", or the first bad one.
fn table(text: &[u8]) -> Result<Vec<i32>, usize> {
    if text.len() > 4_096 {
        return Err(0);
    }
    let mut lines: Vec<&[u8]> = text.split(|&byte| byte == 10).collect();
    // What stands behind the last line feed is bad if there is something.
    let last = lines.pop().expect("a part at least");
    let mut table = Vec::new();
    for (place, line) in lines.iter().enumerate() {
        let line = std::str::from_utf8(line).map_err(|_| place)?;
        table.extend(numbers(line).ok_or(place)?);
    }
    if last.is_empty() {
        Ok(table)
    } else {
        Err(lines.len())
    }
}

fn printed(text: &[u8]) -> String {
    let table = match table(text) {
        Ok(table) => table,
        Err(line) => return format!("refused 19 at {line}\n"),
    };
    let mut headings = vec![7; 4 * 64];
    let mut pool = vec![7; 4_096];
    if let Err((number, entry)) = convert(&table, &mut headings, &mut pool) {
        return format!("refused {number} at {entry}\n");
    }
    let mut lines = String::new();
    for heading in headings.chunks(4).take(table.len() / 6) {
        let cells = pool[heading[0] as usize..].iter().take(heading[1] as usize);
        let mut words = vec![heading[1].to_string(), heading[2].to_string()];
        words.extend(cells.map(|&cell| match cell {
            i32::MIN => ".".to_owned(),
            label => label.to_string(),
        }));
        lines += &(words.join(" ") + "\n");
    }
    lines
}

#[test]
fn texts_are_printed_as_the_words_say() {
    let mut answers: BTreeMap<String, u64> = BTreeMap::new();
    for seed in 0..50_000 {
        let (sort, text) = texts::text(&mut Random::new(0x5EE7_0000 + seed));
        let expected = printed(&text);
        let answer = sheet(&text);
        let shown = String::from_utf8_lossy(&text);
        assert_eq!(answer, expected.as_bytes(), "seed {seed}: {shown}");
        assert!(answer.len() <= SHEET_LIMIT, "seed {seed}: {shown}");
        let told = match expected.strip_prefix("refused ") {
            Some(refusal) => format!("refused {}", refusal.split(' ').next().unwrap()),
            None => "a sheet".to_owned(),
        };
        *answers.entry(format!("{sort:?}: {told}")).or_default() += 1;
    }
    for (answer, count) in &answers {
        println!("{answer}: {count}");
    }
}

#[test]
fn stored_texts_have_their_sheets() {
    for stored in stored() {
        let name = &stored.name;
        assert_eq!(
            String::from_utf8_lossy(&sheet(&stored.text)),
            String::from_utf8_lossy(&stored.sheet),
            "{name}"
        );
        assert_eq!(printed(&stored.text).as_bytes(), stored.sheet, "{name}");
        let mut out = vec![9; stored.sheet.len() + 1];
        assert_eq!(
            sheet_into(&stored.text, &mut out),
            Some(stored.sheet.len()),
            "{name}"
        );
        assert_eq!(out.pop(), Some(0), "{name}");
        assert_eq!(out, stored.sheet, "{name}");
    }
}
