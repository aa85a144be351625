//! Random texts for a sheet, and the stored ones.

use std::fs;

use crate::random::Random;
use crate::second::sheet::TEXT_LIMIT;
use crate::second::ENTRY_NUMBERS;
use crate::tables::case_within;

/// How a text was made.
#[derive(Clone, Copy, Debug, PartialEq, Eq, PartialOrd, Ord)]
pub enum Sort {
    /// A table.
    Valid,
    /// A table of a length near the limit.
    Long,
    /// A table with one byte changed.
    Changed,
    /// A table with one byte missing.
    Dropped,
    /// A table with one byte twice.
    Doubled,
    /// Anything.
    Noise,
}

/// A random text.
pub fn text(random: &mut Random) -> (Sort, Vec<u8>) {
    let sort = match random.below(40) {
        0..=15 => Sort::Valid,
        16 | 17 => Sort::Long,
        18..=23 => Sort::Changed,
        24..=29 => Sort::Dropped,
        30..=35 => Sort::Doubled,
        _ => Sort::Noise,
    };
    let text = match sort {
        Sort::Valid => valid(random),
        Sort::Long => long(random),
        Sort::Noise => noise(random),
        _ => spoiled(random, sort),
    };
    (sort, text)
}

/// A table as text.
pub fn written(table: &[i32]) -> Vec<u8> {
    let mut text = String::new();
    for entry in table.chunks_exact(ENTRY_NUMBERS) {
        text += &entry
            .iter()
            .map(i32::to_string)
            .collect::<Vec<_>>()
            .join(" ");
        text.push('\n');
    }
    text.into_bytes()
}

/// A text of one to four lines, whose table is answered.
pub fn short(random: &mut Random) -> Vec<u8> {
    let mut table = vec![0; ENTRY_NUMBERS];
    for _ in 0..random.below(4) {
        let x = random.range(1, 60) as i32;
        table.extend([random.range(1, 2) as i32, 0, 0, x, 0, 0]);
    }
    written(&table)
}

fn valid(random: &mut Random) -> Vec<u8> {
    let cells = random.choose(&[40, 400, 4_000]);
    written(&case_within(random, cells, false).table)
}

/// Keeps to the rules, with as many bytes as may be, or some more or fewer.
fn long(random: &mut Random) -> Vec<u8> {
    let mut text = valid(random);
    if text.len() > TEXT_LIMIT / 2 {
        text.clear();
    }
    let length = TEXT_LIMIT + random.choose(&[0, 0, 1, 1, 2, 100]) - random.choose(&[0, 0, 1, 9]);
    // Long lines, so that 64 are enough, or lines of any length.
    let least = random.choose(&[SHORTEST, LONGEST - 2]);
    loop {
        let missing = length - text.len();
        if (SHORTEST..=LONGEST).contains(&missing) {
            text.extend(line(random, missing));
            return text;
        }
        let most = LONGEST.min(missing - SHORTEST);
        let next = random.range(least.min(most) as i64, most as i64);
        text.extend(line(random, next as usize));
    }
}

/// How many bytes a line has at least and at most, with its line feed.
const SHORTEST: usize = 12;
const LONGEST: usize = 72;

/// A line of that many bytes.
fn line(random: &mut Random, length: usize) -> Vec<u8> {
    let mut digits = [1; ENTRY_NUMBERS];
    for _ in SHORTEST..length {
        let short: Vec<usize> = (0..ENTRY_NUMBERS).filter(|&i| digits[i] < 11).collect();
        digits[random.choose(&short)] += 1;
    }
    // Ten digits that begin with 1 are 32 bits; the eleventh character is "-".
    let numbers = digits.map(|digits| match digits {
        1 => random.range(0, 9),
        11 => -random.range(1_000_000_000, 1_999_999_999),
        _ => 10_i64.pow(digits - 1) + random.range(0, 10_i64.pow(digits - 1) - 1),
    });
    written(&numbers.map(|number| number as i32))
}

/// A table with a byte that is wrong, missing or too many.
fn spoiled(random: &mut Random, sort: Sort) -> Vec<u8> {
    let mut text = valid(random);
    if text.is_empty() {
        text = written(&[0; ENTRY_NUMBERS]);
    }
    let place = if random.percent(10) {
        text.len() - 1
    } else {
        random.below(text.len())
    };
    match sort {
        Sort::Changed if random.percent(20) => text[place] = random.bits() as u8,
        Sort::Changed => text[place] = random.choose(b"0123456789--+. \n\r\t\0x"),
        Sort::Dropped => {
            text.remove(place);
        }
        _ => text.insert(place, text[place]),
    }
    text
}

/// Words that are numbers, or nearly.
const WORDS: [&str; 24] = [
    "0",
    "0",
    "0",
    "0",
    "1",
    "2",
    "6",
    "7",
    "12",
    "-1",
    "-0",
    "00",
    "07",
    "+1",
    "-",
    "",
    ".",
    "1.0",
    "2147483647",
    "2147483648",
    "-2147483648",
    "-2147483649",
    "4294967297",
    "99999999999999999999",
];

fn noise(random: &mut Random) -> Vec<u8> {
    let length = random.below(80);
    match random.below(4) {
        0 => (0..length).map(|_| random.bits() as u8).collect(),
        1 => (0..length)
            .map(|_| random.choose(b"0123456789- \n"))
            .collect(),
        _ => words(random),
    }
}

/// Lines of mostly six words with mostly single spaces between.
fn words(random: &mut Random) -> Vec<u8> {
    let mut text = String::new();
    for _ in 0..random.range(1, 4) {
        let count = random.choose(&[5, 6, 6, 6, 6, 6, 6, 6, 7]);
        for place in 0..count {
            if place > 0 {
                text += random.choose(&[" ", " ", " ", " ", " ", " ", " ", " ", "  ", "\t"]);
            }
            let any = random.percent(15);
            text += WORDS[random.below(if any { WORDS.len() } else { 9 })];
        }
        text += random.choose(&["\n", "\n", "\n", "\n", "\n", "\n", "\r\n", " \n", ""]);
    }
    text.into_bytes()
}

/// A text that is stored with its sheet in `examples/sheets`.
pub struct Stored {
    pub name: String,
    pub text: Vec<u8>,
    pub sheet: Vec<u8>,
}

/// All stored texts, by name.
pub fn stored() -> Vec<Stored> {
    let folder = concat!(env!("CARGO_MANIFEST_DIR"), "/../../examples/sheets");
    let files = fs::read_dir(folder).expect("the stored texts are there");
    let mut names: Vec<String> = files
        .filter_map(|file| file.ok()?.file_name().into_string().ok())
        .filter_map(|name| name.strip_suffix(".in").map(str::to_owned))
        .collect();
    names.sort();
    let read = |file: String| fs::read(format!("{folder}/{file}")).expect(&file);
    let stored = |name: String| Stored {
        text: read(format!("{name}.in")),
        sheet: read(format!("{name}.out")),
        name,
    };
    names.into_iter().map(stored).collect()
}
