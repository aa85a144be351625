//! Journals: the proved core against the second implementation.

use jogipahn_compare::core;
use jogipahn_compare::counts::Counts;
use jogipahn_compare::random::Random;
use jogipahn_compare::second::journal::{self as second, RECORD_LIMIT};
use jogipahn_compare::second::sheet::TEXT_LIMIT;
use jogipahn_compare::texts;

/// So many texts are appended.
const TEXTS: u64 = 100_000;

/// So many journals are made by appends that are cut.
const JOURNALS: u64 = 20_000;

/// So many files are anything.
const FILES: u64 = 200_000;

#[test]
fn records_are_alike() {
    let mut answers = Counts::default();
    let mut lists = Counts::default();
    for seed in 0..TEXTS {
        let mut random = Random::new(seed);
        let text = match random.below(40) {
            0 => Vec::new(),
            1..=9 => texts::short(&mut random),
            _ => texts::text(&mut random).1,
        };
        let shown = String::from_utf8_lossy(&text);
        let expected = second::record(&text);
        let needed = expected.as_ref().map_or(text.len() + 6, Vec::len);
        let (list, length) = match random.below(5) {
            0 => ("just enough", needed),
            1 => ("one short", needed - 1),
            2 => ("shorter", random.below(needed)),
            3 => ("none", 0),
            _ => ("longer", needed + random.range(1, 300) as usize),
        };
        lists.add(list);
        let mut out: Vec<u8> = (0..length).map(|_| random.bits() as u8).collect();
        let mut zeroed = vec![b'?'; length];
        let answer = core::journal_record_into(&text, &mut out);
        assert_eq!(answer, second::record_into(&text, &mut zeroed), "{shown}");
        assert_eq!(out, zeroed, "{list}: {shown}");
        answers.add(match (answer, &expected) {
            (Ok(Some(written)), Ok(record)) => {
                assert_eq!(&out[..written], record, "{shown}");
                assert!(out[written..].iter().all(|&byte| byte == 0), "{shown}");
                "written"
            }
            (Ok(None), Ok(record)) if length < record.len() => "too short",
            (Err(line), Err(expected)) if line == *expected => match line {
                0 if text.is_empty() => "19 for nothing",
                0 if text.len() > TEXT_LIMIT => "19 for its length",
                0 => "19 for line 0",
                _ => "19 for a later line",
            },
            _ => panic!("{answer:?} for {expected:?}"),
        });
        if answer.map_or(true, |written| written.is_none()) {
            assert!(out.iter().all(|&byte| byte == 0), "{list}: {shown}");
        }
    }
    println!("{TEXTS} texts");
    answers.print();
    lists.print();
    answers.assert_each(6, 1_000);
    answers.assert_least("written", 10_000);
    answers.assert_least("too short", 10_000);
    lists.assert_each(5, 10_000);
}

/// What a journal's last append left, whole or cut.
#[test]
fn torn_journals_are_opened_alike() {
    let mut counts = Counts::default();
    for seed in 0..JOURNALS {
        let mut random = Random::new(seed);
        let mut book = Vec::new();
        let mut current: Option<Vec<u8>> = None;
        let cuts = random.choose(&[0, 30, 70, 100]);
        for _ in 0..random.range(1, 12) {
            let text = match random.below(8) {
                0 => texts::text(&mut random).1,
                _ => texts::short(&mut random),
            };
            let Ok(record) = second::record(&text) else {
                counts.add("append refused");
                continue;
            };
            let torn = random.percent(cuts);
            let kept = if torn {
                random.below(record.len())
            } else {
                record.len()
            };
            book.extend(&record[..kept]);
            if !torn {
                current = Some(text);
            }
            let found = core::journal_last(&book);
            assert_eq!(found, second::last(&book), "seed {seed}: {book:?}");
            let body = found.map(|place| &book[place]);
            assert_eq!(body, current.as_deref(), "seed {seed}: {book:?}");
            counts.add(match (torn, &current) {
                (false, _) => "the new table",
                (true, Some(_)) => "the former table",
                (true, None) => "nothing yet",
            });
        }
    }
    println!("{JOURNALS} journals");
    counts.print();
    counts.assert_each(4, 4_000);
}

/// Files that our writer did not make: any bytes, and trailers of any lengths.
#[test]
fn any_bytes_are_opened_alike() {
    let mut counts = Counts::default();
    for seed in 0..FILES {
        let mut random = Random::new(seed);
        let book = any_bytes(&mut random);
        let found = core::journal_last(&book);
        assert_eq!(found, second::last(&book), "seed {seed}: {book:?}");
        counts.add(match found {
            None => "empty",
            Some(place) if place.end + 6 == book.len() => "found at the end",
            Some(_) => "found before the end",
        });
    }
    println!("{FILES} files");
    counts.print();
    counts.assert_each(3, 10_000);
}

fn any_bytes(random: &mut Random) -> Vec<u8> {
    let mut book = Vec::new();
    for _ in 0..random.below(5) {
        for _ in 0..random.choose(&[0, 1, 5, 30]) {
            book.push(match random.below(6) {
                0 => 255,
                1 => 254,
                2 => random.below(3) as u8,
                _ => random.bits() as u8,
            });
        }
        // A trailer whose length is about right, with a byte that may be wrong.
        let length = (book.len() as i64 + random.range(-3, 2)).max(0);
        let short = random.range(0, 5);
        let length = random.choose(&[length, short, 4_096, 4_097, 1 << 21]);
        let mut trailer: Vec<u8> = vec![255];
        trailer.extend((0..4).map(|place| (length >> (7 * place) & 127) as u8));
        trailer.push(254);
        match random.below(6) {
            0 => trailer[random.below(6)] = random.bits() as u8,
            1 => trailer[random.range(1, 4) as usize] |= 128,
            2 => trailer.truncate(random.below(6)),
            _ => {}
        }
        book.extend(trailer);
    }
    book.extend((0..random.choose(&[0, 0, 3])).map(|_| random.bits() as u8));
    book
}

#[test]
fn the_longest_record() {
    assert_eq!(RECORD_LIMIT, 4_102);
    let mut text = b"0 0 0 0 0 0\n".repeat(340);
    text.extend(b"0 0 0 0 0 10000\n");
    assert_eq!(text.len(), TEXT_LIMIT);
    let mut out = vec![b'?'; RECORD_LIMIT];
    assert_eq!(
        core::journal_record_into(&text, &mut out),
        Ok(Some(RECORD_LIMIT))
    );
    assert_eq!(&out[TEXT_LIMIT..], [255, 0, 32, 0, 0, 254]);
    assert_eq!(core::journal_last(&out), Some(0..TEXT_LIMIT));
    // Far from the end, behind bytes that end no trailer.
    let torn = out[..RECORD_LIMIT - 1].repeat(5);
    out.extend(torn);
    assert_eq!(core::journal_last(&out), Some(0..TEXT_LIMIT));
}
