//! Stored vectors: tables for the program `vectors`, and what it has to print.

use std::fmt::{Display, Write};

use crate::random::Random;
use crate::second::{self, EMPTY, ENTRY_NUMBERS, HEADING_NUMBERS};
use crate::tables::{case_within, Case};

/// The longest pool and the most heading numbers that a vector lends.
const POOL: usize = 64;
const HEADINGS: usize = 32 * HEADING_NUMBERS;

/// Each kind is answered, and each refusal but 3, whose pool is too long to
/// store, is given, at least so many times.
const TIMES: usize = 3;

/// The tables: random ones, each of which shows a kind or a refusal that has
/// not been shown often enough.
pub fn cases() -> Vec<Case> {
    let mut answered = [0; 13];
    let mut refused = [0; 13];
    refused[3] = TIMES;
    let mut cases = Vec::new();
    for seed in 0.. {
        let case = case_within(&mut Random::new(seed), POOL, false);
        if case.pool > POOL || case.headings > HEADINGS {
            continue;
        }
        let mut is_new = false;
        let mut show = |shown: &mut usize| {
            is_new |= *shown < TIMES;
            *shown += 1;
        };
        match convert(&case).0 {
            Ok(()) => kinds(&case).for_each(|kind| show(&mut answered[kind])),
            Err((number, _)) => show(&mut refused[number as usize]),
        }
        if is_new {
            cases.push(case);
        }
        if answered.iter().all(|&n| n >= TIMES) && refused[1..].iter().all(|&n| n >= TIMES) {
            return cases;
        }
    }
    unreachable!("seeds do not end")
}

fn kinds(case: &Case) -> impl Iterator<Item = usize> + '_ {
    case.table
        .chunks_exact(ENTRY_NUMBERS)
        .map(|entry| entry[0] as usize)
}

type Converted = (Result<(), (u32, u32)>, Vec<u32>, Vec<i32>);

fn convert(case: &Case) -> Converted {
    let mut headings = vec![1; case.headings];
    let mut pool = vec![1; case.pool];
    let answer = second::convert(&case.table, &mut headings, &mut pool);
    (answer, headings, pool)
}

/// What the program prints: for each table a line with its number, and then
/// its refusal or a line for each row: period, distance, slots and cells.
pub fn printed(cases: &[Case]) -> String {
    let mut text = String::new();
    for (number, case) in cases.iter().enumerate() {
        writeln!(text, "table {number}").unwrap();
        let (answer, headings, pool) = convert(case);
        match answer {
            Err((number, entry)) => writeln!(text, "refused {number} at {entry}").unwrap(),
            Ok(()) => {
                let entries = case.table.len() / ENTRY_NUMBERS;
                for heading in headings.chunks_exact(HEADING_NUMBERS).take(entries) {
                    let &[start, period, distance, slots] = heading else {
                        unreachable!()
                    };
                    write!(text, "{period} {distance} {slots}").unwrap();
                    for &cell in &pool[start as usize..(start + period) as usize] {
                        if cell == EMPTY {
                            text.push_str(" .");
                        } else {
                            write!(text, " {cell}").unwrap();
                        }
                    }
                    text.push('\n');
                }
            }
        }
    }
    text
}

/// The tables as a file of the program.
pub fn source(cases: &[Case]) -> String {
    let mut text = String::from(
        "// The tables, one behind the other, and of each its length, how many heading numbers and how many cells are lent.\n",
    );
    let numbers = cases.iter().flat_map(|case| &case.table);
    array(&mut text, "NUMBERS", "i32", numbers);
    let sizes = cases
        .iter()
        .flat_map(|case| [case.table.len(), case.headings, case.pool]);
    array(&mut text, "SIZES", "usize", sizes);
    bound(&mut text, "HEADINGS", HEADINGS, "heading numbers");
    bound(&mut text, "CELLS", POOL, "cells");
    text
}

/// As `rt fmt` lays a long array out: one number to a line, or as many as fit where none has more than ten digits.
fn array<T: Display>(text: &mut String, name: &str, of: &str, numbers: impl Iterator<Item = T>) {
    let numbers: Vec<String> = numbers.map(|number| format!(" {number},")).collect();
    writeln!(text, "\npub const {name}: [{of}; {}] = [", numbers.len()).unwrap();
    let widest = numbers.iter().map(String::len).max().unwrap_or(0);
    let most = if widest <= 12 { 99 } else { 0 };
    let mut width = 0;
    for number in numbers {
        if width == 0 || width + number.len() > most {
            text.push_str(if width == 0 { "   " } else { "\n   " });
            width = 3;
        }
        text.push_str(&number);
        width += number.len();
    }
    text.push_str("\n];\n");
}

fn bound(text: &mut String, name: &str, number: usize, of: &str) {
    writeln!(text, "\n// The most {of} that are lent.").unwrap();
    writeln!(text, "pub const {name}: usize = {number};").unwrap();
}
