//! The check of finished lists: the proved core against the second
//! implementation.

use jogipahn_compare::claims::claim;
use jogipahn_compare::core;
use jogipahn_compare::counts::Counts;
use jogipahn_compare::random::Random;
use jogipahn_compare::second;
use jogipahn_compare::second::check::{check, Verdict};
use jogipahn_compare::second::{EMPTY, ENTRY_NUMBERS};

/// So many finished lists are given to both.
const CLAIMS: u64 = 60_000;

#[test]
fn finished_lists_are_checked_alike() {
    let mut verdicts = Counts::default();
    let mut beside = Counts::default();
    let mut by_change = Counts::default();
    let mut behind_a_wrong_entry = 0;
    for seed in 0..CLAIMS {
        let claim = claim(&mut Random::new(seed));
        let expected = check(&claim.table, &claim.headings, &claim.pool);
        let verdict = core::check(&claim.table, &claim.headings, &claim.pool);
        assert_eq!(verdict, expected, "seed {seed}: {claim:?}");
        let entries = (claim.table.len() / ENTRY_NUMBERS) as u32;
        match expected {
            Verdict::Accepted => verdicts.add("accepted"),
            Verdict::Refused(number, _) => {
                verdicts.add(format!("refused {number:02}"));
                // Whatever stands there is no right row; it may be a sound one.
                if claim
                    .changes
                    .contains(&"a row supplied for a refused entry")
                {
                    beside.add(format!("refused {number:02} beside a row"));
                }
                if claim
                    .changes
                    .contains(&"numbers supplied for a refused entry")
                {
                    beside.add(format!("refused {number:02} beside other numbers"));
                }
            }
            Verdict::Wrong(entry) if entry == entries => verdicts.add("only the rest is wrong"),
            Verdict::Wrong(_) => {
                verdicts.add("an entry is wrong");
                let (mut headings, mut pool) = (claim.headings.clone(), claim.pool.clone());
                let refused = second::convert(&claim.table, &mut headings, &mut pool).is_err();
                behind_a_wrong_entry += u64::from(refused);
            }
        }
        if let [change] = claim.changes[..] {
            let wrong = matches!(expected, Verdict::Wrong(_));
            by_change.add(format!(
                "{change}: {}",
                if wrong { "wrong" } else { "other" }
            ));
        }
    }
    verdicts.print();
    beside.print();
    by_change.print();
    println!("{behind_a_wrong_entry} wrong at an entry before one that is refused");
    verdicts.assert_each(15, 500);
    for number in 4..=12 {
        beside.assert_least(&format!("refused {number:02} beside a row"), 150);
        beside.assert_least(&format!("refused {number:02} beside other numbers"), 150);
    }
    for change in [
        "a start",
        "a period",
        "a distance",
        "a number of slots",
        "a cell of a row",
        "a row twice as long",
        "a row cut short",
        "labels that are moved",
        "a cell behind",
        "a number behind",
    ] {
        by_change.assert_least(&format!("{change}: wrong"), 500);
    }
    assert!(behind_a_wrong_entry >= 5_000);
}

/// Every change of one number or one cell of small lists is found, and where.
#[test]
fn every_change_of_a_small_claim_is_found() {
    // Days, weeks, five open days a week, numbered one by one, in fives.
    let table = [
        [0, 0, 0, 0, 0, 0],
        [1, 0, 0, 7, 0, 0],
        [6, 0, 1, 1, 5, 0],
        [12, 2, 0, 1, 0, 0],
        [1, 3, 0, 5, 0, 0],
    ];
    let table = table.as_flattened();
    let mut headings = vec![0; 22];
    let mut pool = vec![EMPTY; 40];
    second::convert(table, &mut headings, &mut pool).expect("it is answered");
    assert_eq!(core::check(table, &headings, &pool), Verdict::Accepted);
    for place in 0..headings.len() {
        for by in [1, u32::MAX, 0x8000_0000] {
            let mut changed = headings.clone();
            changed[place] = changed[place].wrapping_add(by);
            let entry = (place / 4).min(5) as u32;
            assert_eq!(
                core::check(table, &changed, &pool),
                Verdict::Wrong(entry),
                "number {place}"
            );
        }
    }
    let ends: Vec<usize> = headings
        .chunks_exact(4)
        .take(5)
        .map(|row| (row[0] + row[1]) as usize)
        .collect();
    for place in 0..pool.len() {
        for value in [EMPTY, 0, 1, -1, pool[place].wrapping_add(1), i32::MAX] {
            let mut changed = pool.clone();
            changed[place] = value;
            let entry = ends.iter().filter(|&&end| end <= place).count() as u32;
            let expected = match value == pool[place] {
                true => Verdict::Accepted,
                false => Verdict::Wrong(entry),
            };
            assert_eq!(
                core::check(table, &headings, &changed),
                expected,
                "cell {place}"
            );
        }
    }
}
