//! Conversion in steps: the proved core against the second implementation, and
//! both against whole conversions.

use jogipahn_compare::core;
use jogipahn_compare::counts::Counts;
use jogipahn_compare::random::Random;
use jogipahn_compare::second::walk::{Progress, Walk};
use jogipahn_compare::second::{self, EMPTY, ENTRY_NUMBERS, HEADING_NUMBERS};
use jogipahn_compare::tables::{case_within, dirt, Case};

/// A walk of each side over lists of its own.
struct Both {
    core: core::Walk,
    second: Walk,
    /// The core's lists; the other's are the same whenever a call is over.
    headings: Vec<u32>,
    pool: Vec<i32>,
}

impl Both {
    fn start(random: &mut Random, case: &Case) -> (Self, Progress) {
        let mut headings = vec![dirt(random) as u32; case.headings];
        let mut pool = vec![dirt(random); case.pool];
        let (mut other_headings, mut other_pool) = (headings.clone(), pool.clone());
        let second = Walk::start(&case.table, &mut other_headings, &mut other_pool);
        let (core, answer) =
            core::Walk::start(&case.table, &mut headings, &mut pool, random.any_i64());
        assert_eq!(answer, second.progress(), "{case:?}");
        assert!(headings == other_headings && pool == other_pool, "{case:?}");
        assert!(headings.iter().all(|&number| number == 0));
        assert!(pool.iter().all(|&cell| cell == EMPTY));
        let both = Both {
            core,
            second,
            headings,
            pool,
        };
        (both, answer)
    }

    fn step(&mut self, table: &[i32]) -> Progress {
        let (mut headings, mut pool) = (self.headings.clone(), self.pool.clone());
        let expected = self.second.step(table, &mut headings, &mut pool);
        let answer = self.core.step(table, &mut self.headings, &mut self.pool);
        assert_eq!(answer, expected, "{table:?}");
        assert!(headings == self.headings && pool == self.pool, "{table:?}");
        answer
    }
}

fn name(progress: Progress) -> String {
    match progress {
        Progress::More => "more".to_owned(),
        Progress::Done => "done".to_owned(),
        Progress::Refused(number, _) => format!("refused {number:02}"),
    }
}

/// A table with room for it, mostly short.
fn some_case(random: &mut Random) -> Case {
    let cells = random.choose(&[40, 40, 400, 400, 2000]);
    case_within(random, cells, false)
}

#[test]
fn walks_left_alone_are_conversions() {
    let mut counts = Counts::default();
    for seed in 0..12_000 {
        let mut random = Random::new(0x57E9_0000 + seed);
        let case = some_case(&mut random);
        let (mut both, begun) = Both::start(&mut random, &case);
        let entries = case.table.len() / ENTRY_NUMBERS;
        let mut headings = vec![7; case.headings];
        let mut pool = vec![7; case.pool];
        let whole = second::convert(&case.table, &mut headings, &mut pool);
        if let Progress::Refused(number, entry) = begun {
            assert_eq!(whole, Err((number, entry)));
            assert!(entry == 0 && number <= 3);
        }
        let mut calls = 0;
        let mut last = begun;
        while last == Progress::More {
            last = both.step(&case.table);
            calls += 1;
            // The first entries alone, with the same pool.
            let first = &case.table[..ENTRY_NUMBERS * calls];
            let mut headings = vec![7; case.headings];
            let mut pool = vec![7; case.pool];
            let prefix = core::convert(first, &mut headings, &mut pool);
            assert!(both.headings == headings && both.pool == pool, "{case:?}");
            match last {
                Progress::More => assert!(prefix.is_ok() && calls < entries),
                Progress::Done => assert!(prefix.is_ok() && calls == entries),
                Progress::Refused(number, entry) => {
                    assert_eq!(prefix, Err((number, entry)));
                    assert_eq!(entry as usize, calls - 1);
                }
            }
            counts.add(format!("a call: {}", name(last)));
        }
        assert_eq!(whole.is_ok(), last == Progress::Done);
        assert!(both.headings == headings && both.pool == pool);
        // A walk in the crate's own lists, which has headings enough.
        if begun != Progress::Refused(2, 0) {
            let rows = core::walked(&case.table, case.pool);
            assert_eq!(rows.as_ref().err(), whole.as_ref().err(), "{case:?}");
            assert!(rows.is_ok_and(|rows| rows.pool() == pool) || whole.is_err());
        }
        counts.add(format!("a walk: {}", name(last)));
        // Calls after the end change nothing, whatever is lent.
        for _ in 0..2 {
            let state = both.core.state.clone();
            if random.percent(50) {
                both.headings = (0..random.below(9)).map(|_| random.bits() as u32).collect();
                both.pool = (0..random.below(9)).map(|_| random.any_i32()).collect();
            }
            let before = (both.headings.clone(), both.pool.clone());
            let table: &[i32] = if random.percent(50) { &case.table } else { &[] };
            assert_eq!(both.step(table), last);
            assert_eq!((&before.0, &before.1), (&both.headings, &both.pool));
            assert_eq!(both.core.state, state);
        }
    }
    counts.print();
    counts.assert_least("a walk: done", 2_000);
    for number in 1..=12 {
        counts.assert_least(&format!("a walk: refused {number:02}"), 200);
    }
    counts.assert_least("a call: more", 10_000);
}

/// What a caller changes between two calls.
const CHANGES: [&str; 12] = [
    "nothing",
    "a cell of a row",
    "a cell behind the rows",
    "a heading number",
    "a number behind the headings",
    "labels moved",
    "a row twice",
    "the entry due",
    "an earlier entry",
    "the table's length",
    "the headings' length",
    "the pool's length",
];

/// Makes the change, if there is such a thing to change.
fn change(random: &mut Random, what: &str, table: &mut Vec<i32>, both: &mut Both, due: usize) {
    let used: usize = (0..due)
        .map(|entry| both.headings[HEADING_NUMBERS * entry + 1] as usize)
        .sum();
    let told = HEADING_NUMBERS * due;
    let some_row = |random: &mut Random, both: &Both| {
        let entry = random.below(due);
        let start = both.headings[HEADING_NUMBERS * entry] as usize;
        (
            entry,
            start,
            both.headings[HEADING_NUMBERS * entry + 1] as usize,
        )
    };
    match what {
        "a cell of a row" if used > 0 => {
            let cell = random.below(used);
            both.pool[cell] = match random.below(4) {
                0 => EMPTY,
                1 => both.pool[cell].wrapping_add(1),
                2 => random.any_i32(),
                _ => random.range(-3, 3) as i32,
            };
        }
        "a cell behind the rows" if used < both.pool.len() => {
            let cell = used + random.below(both.pool.len() - used);
            both.pool[cell] = random.range(-3, 3) as i32;
        }
        "a heading number" if told > 0 => {
            let at = random.below(told);
            both.headings[at] = match random.below(3) {
                0 => both.headings[at].wrapping_add(1),
                1 => both.headings[at].wrapping_sub(1),
                _ => random.bits() as u32,
            };
        }
        "a number behind the headings" if told < both.headings.len() => {
            let at = told + random.below(both.headings.len() - told);
            both.headings[at] = random.range(1, 3) as u32;
        }
        "labels moved" if due > 0 => {
            // Another calendar in its least form: all labels of a row moved.
            let (_, start, period) = some_row(random, both);
            let by = random.range(-5, 5) as i32;
            for cell in &mut both.pool[start..start + period] {
                if *cell != EMPTY {
                    *cell = cell.wrapping_add(by);
                }
            }
        }
        "a row twice" if due > 0 => {
            // The same calendar, but not in its least form: the last row written twice.
            let at = HEADING_NUMBERS * (due - 1);
            let &[start, period, distance, slots] = &both.headings[at..at + 4] else {
                unreachable!()
            };
            let (start, period) = (start as usize, period as usize);
            if start + 2 * period <= both.pool.len() {
                for cell in start..start + period {
                    let label = both.pool[cell];
                    both.pool[cell + period] = match label {
                        EMPTY => EMPTY,
                        label => label.wrapping_add(distance as i32),
                    };
                }
                let twice = [2 * period as u32, 2 * distance, 2 * slots];
                both.headings[at + 1..at + 4].copy_from_slice(&twice);
            }
        }
        "the entry due" => {
            let at = ENTRY_NUMBERS * due + random.below(ENTRY_NUMBERS);
            table[at] = random.range(-2, 12) as i32;
        }
        "an earlier entry" if due > 0 => {
            let at = random.below(ENTRY_NUMBERS * due);
            table[at] = random.any_i32();
        }
        "the table's length" => match random.below(2) {
            0 => table.truncate(table.len() - ENTRY_NUMBERS),
            _ => table.extend([0; ENTRY_NUMBERS]),
        },
        "the headings' length" => match random.below(2) {
            0 => both.headings.truncate(both.headings.len() - 1),
            _ => both.headings.push(0),
        },
        "the pool's length" => match random.below(2) {
            0 if !both.pool.is_empty() => both.pool.truncate(both.pool.len() - 1),
            _ => both.pool.push(EMPTY),
        },
        _ => {}
    }
}

#[test]
fn changed_lists_are_taken_alike() {
    let mut counts = Counts::default();
    for seed in 0..60_000 {
        let mut random = Random::new(0xC4A6_0000 + seed);
        let case = some_case(&mut random);
        let (mut both, mut last) = Both::start(&mut random, &case);
        let mut table = case.table.clone();
        let mut due = 0;
        while last == Progress::More {
            let what = if random.percent(85) {
                "nothing"
            } else {
                random.choose(&CHANGES)
            };
            change(&mut random, what, &mut table, &mut both, due);
            last = both.step(&table);
            counts.add(format!("{what}: {}", name(last)));
            match last {
                Progress::Refused(_, entry) => {
                    assert_eq!(entry as usize, due);
                    assert!(both.headings.iter().all(|&number| number == 0));
                    assert!(both.pool.iter().all(|&cell| cell == EMPTY));
                }
                _ => due += 1,
            }
        }
        counts.add(format!("a walk: {}", name(last)));
    }
    counts.print();
    for what in [
        "the table's length",
        "the headings' length",
        "the pool's length",
    ] {
        counts.assert_least(&format!("{what}: refused 13"), 300);
    }
    for what in [
        "a cell of a row",
        "a cell behind the rows",
        "a heading number",
        "a number behind the headings",
        "a row twice",
    ] {
        counts.assert_least(&format!("{what}: refused 13"), 300);
    }
    for what in [
        "labels moved",
        "an earlier entry",
        "nothing",
        "the entry due",
    ] {
        counts.assert_least(&format!("{what}: more"), 300);
        counts.assert_least(&format!("{what}: done"), 30);
    }
    counts.assert_least("a cell of a row: more", 100);
    for number in 1..=13 {
        counts.assert_least(&format!("a walk: refused {number:02}"), 500);
    }
    counts.assert_least("a walk: done", 5_000);
}

#[test]
fn states_that_no_call_wrote() {
    let mut counts = Counts::default();
    for seed in 0..20_000 {
        let mut random = Random::new(0x57A7_0000 + seed);
        let case = some_case(&mut random);
        let (mut both, begun) = Both::start(&mut random, &case);
        if begun != Progress::More {
            continue;
        }
        let before = both.core.clone();
        // A state can be used twice: the second use finds a row too many.
        if both.step(&case.table) == Progress::More {
            let mut again = before.clone();
            let (mut headings, mut pool) = (both.headings.clone(), both.pool.clone());
            let answer = again.step(&case.table, &mut headings, &mut pool);
            assert_eq!(answer, Progress::Refused(13, 0));
            counts.add("used twice");
        }
        // Nothing is touched where a state holds no walk.
        let mut walk = before.clone();
        let what = match random.below(4) {
            0 => {
                walk.state.resize(random.choose(&[0, 1, 7, 9, 20]), 0);
                "another length"
            }
            1 => {
                walk.state[0] = random.choose(&[0, -1, 4, 100, i64::MAX, i64::MIN]);
                "another stage"
            }
            2 => {
                (walk.state[0], walk.state[1]) = (1, random.range(64, i64::MAX));
                "an entry that no table has"
            }
            _ => {
                (walk.state[0], walk.state[1]) = (3, random.range(1400, i64::MAX));
                "a refusal that there is not"
            }
        };
        let (mut headings, mut pool) = (both.headings.clone(), both.pool.clone());
        let state = walk.state.clone();
        assert_eq!(walk.step_in(&case.table, &mut headings, &mut pool), 1300);
        assert!(headings == both.headings && pool == both.pool && walk.state == state);
        counts.add(format!("no walk: {what}"));
        if what == "another length" {
            assert_eq!(walk.start_in(&case.table, &mut headings, &mut pool), 1300);
            assert!(headings == both.headings && pool == both.pool && walk.state == state);
        }
        // Any walk that a state names is taken by the same rule.
        let mut walk = before;
        (walk.state[0], walk.state[1]) = (1, random.range(0, 63));
        let due = walk.state[1];
        let answer = walk.step_in(&case.table, &mut headings, &mut pool);
        counts.add(match answer {
            0 | 1 => "another entry: taken",
            _ if answer == 1300 + due => "another entry: refused 13",
            _ => "another entry: refused otherwise",
        });
    }
    counts.print();
    counts.assert_least("used twice", 3_000);
    for what in [
        "another length",
        "another stage",
        "an entry that no table has",
        "a refusal that there is not",
    ] {
        counts.assert_least(&format!("no walk: {what}"), 1_000);
    }
    counts.assert_least("another entry: refused 13", 3_000);
}
