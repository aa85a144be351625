//! Sheets from text: the proved core against the second implementation.

use std::collections::BTreeMap;

use jogipahn_compare::core;
use jogipahn_compare::random::Random;
use jogipahn_compare::second::sheet::{self as second, SHEET_LIMIT, TEXT_LIMIT};
use jogipahn_compare::texts::{self, stored, Sort};

/// So many texts are given to both.
const TEXTS: u64 = 100_000;

#[test]
fn texts_are_printed_alike() {
    let mut sorts: BTreeMap<Sort, u64> = BTreeMap::new();
    let mut answers: BTreeMap<String, u64> = BTreeMap::new();
    let mut lists: BTreeMap<&str, u64> = BTreeMap::new();
    let mut longest = 0;
    for seed in 0..TEXTS {
        let mut random = Random::new(seed);
        let (sort, text) = texts::text(&mut random);
        let expected = second::sheet(&text);
        let shown = String::from_utf8_lossy(&text);
        assert_eq!(core::sheet(&text), expected, "seed {seed}: {shown}");
        let list = random.choose(&LISTS);
        compare_lists(&text, list, &mut random);
        longest = longest.max(expected.len());
        *sorts.entry(sort).or_default() += 1;
        *answers.entry(told(&text, &expected)).or_default() += 1;
        *lists.entry(list).or_default() += 1;
    }
    println!("{TEXTS} texts, {sorts:?}; the longest sheet has {longest} bytes");
    println!("lists: {lists:?}");
    for (answer, count) in &answers {
        println!("{answer}: {count}");
    }
    assert!(sorts.len() == 6 && sorts.values().all(|&count| count >= 4_000));
    assert!(lists.len() == LISTS.len() && lists.values().all(|&count| count >= 10_000));
    let count_of = |answer: &str| answers.get(answer).copied().unwrap_or(0);
    assert!(count_of("a sheet") >= 10_000);
    for number in [1, 4, 5, 6, 7, 8, 9, 10, 11, 12] {
        let refused = format!("refused {number}");
        assert!(
            count_of(&refused) >= 100,
            "{refused}: {}",
            count_of(&refused)
        );
    }
    for bad in ["its length", "line 0", "a later line"] {
        let refused = format!("refused 19 for {bad}");
        assert!(
            count_of(&refused) >= 1_000,
            "{refused}: {}",
            count_of(&refused)
        );
    }
    // There are headings enough, and the pool isn't too long.
    assert_eq!(count_of("refused 2") + count_of("refused 3"), 0);
}

/// What sort of answer a sheet is.
fn told(text: &[u8], sheet: &[u8]) -> String {
    let sheet = std::str::from_utf8(sheet).expect("a sheet has bytes below 128");
    let Some(refusal) = sheet.strip_prefix("refused ") else {
        return "a sheet".to_owned();
    };
    let (number, place) = refusal.trim_end().split_once(" at ").expect("two numbers");
    match (number, place) {
        ("19", "0") if text.len() > TEXT_LIMIT => "refused 19 for its length".to_owned(),
        ("19", "0") => "refused 19 for line 0".to_owned(),
        ("19", _) => "refused 19 for a later line".to_owned(),
        _ => format!("refused {number}"),
    }
}

/// How long a lent list is.
const LISTS: [&str; 5] = ["just enough", "one short", "shorter", "empty", "longer"];

/// Both leave the same in a list of that sort: the sheet and zeros behind it,
/// or zeros alone.
fn compare_lists(text: &[u8], list: &str, random: &mut Random) {
    let sheet = second::sheet(text);
    let length = match list {
        "just enough" => sheet.len(),
        "one short" => sheet.len() - 1,
        "shorter" => random.below(sheet.len()),
        "empty" => 0,
        _ => sheet.len() + random.range(1, 300) as usize,
    };
    let mut out: Vec<u8> = (0..length).map(|_| random.bits() as u8).collect();
    let mut expected = vec![b'?'; length];
    let answer = core::sheet_into(text, &mut out);
    let shown = String::from_utf8_lossy(text);
    assert_eq!(answer, second::sheet_into(text, &mut expected), "{shown}");
    assert_eq!(out, expected, "{list}: {shown}");
    let fits = length >= sheet.len();
    assert_eq!(answer, fits.then_some(sheet.len()), "{list}: {shown}");
    let (written, rest) = out.split_at(answer.unwrap_or(0));
    assert!(rest.iter().all(|&byte| byte == 0), "{list}: {shown}");
    assert!(!fits || written == sheet, "{list}: {shown}");
}

#[test]
fn stored_texts_have_their_sheets() {
    let all = stored();
    let mut random = Random::new(1);
    for stored in &all {
        assert_eq!(
            String::from_utf8_lossy(&core::sheet(&stored.text)),
            String::from_utf8_lossy(&stored.sheet),
            "{}",
            stored.name
        );
        for list in LISTS {
            compare_lists(&stored.text, list, &mut random);
        }
    }
    println!("{} stored texts", all.len());
    assert!(all.len() >= 30);
}

#[test]
fn the_list_for_any_sheet() {
    assert_eq!(SHEET_LIMIT, 49_792);
    let mut out = vec![b'?'; SHEET_LIMIT];
    assert_eq!(core::sheet_into(b"0 0 0 0 0 0\n", &mut out), Some(6));
    assert_eq!(&out[..7], b"1 1 0\n\0");
    assert!(out[6..].iter().all(|&byte| byte == 0));
}
