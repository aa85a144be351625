//! The random tables reach every kind and every refusal.

use jogipahn_compare::random::Random;
use jogipahn_compare::rows::labels_per_turn;
use jogipahn_compare::second::{convert, EMPTY, ENTRY_NUMBERS, HEADING_NUMBERS};
use jogipahn_compare::tables::{case, dirt};

#[test]
fn every_kind_is_answered_and_every_refusal_given() {
    const TABLES: u64 = 20_000;
    let mut answered = [0; 13];
    let mut refused = [0; 13];
    let mut refused_kinds = [[0; 13]; 13];
    let mut tables_answered = 0;
    let mut left_over = [0; HEADING_NUMBERS];
    let mut longest = 0;
    for seed in 0..TABLES {
        let mut random = Random::new(seed);
        let case = case(&mut random);
        let mut headings = vec![dirt(&mut random) as u32; case.headings];
        let mut pool = vec![dirt(&mut random); case.pool];
        match convert(&case.table, &mut headings, &mut pool) {
            Ok(()) => {
                tables_answered += 1;
                for entry in case.table.chunks_exact(ENTRY_NUMBERS) {
                    answered[entry[0] as usize] += 1;
                }
                check_lists(case.table.len() / ENTRY_NUMBERS, &headings, &pool);
                left_over[case.headings % HEADING_NUMBERS] += 1;
                longest = longest.max(
                    headings
                        .chunks_exact(HEADING_NUMBERS)
                        .map(|heading| heading[1])
                        .max()
                        .unwrap(),
                );
            }
            Err((number, entry)) => {
                refused[number as usize] += 1;
                if let Some(&kind) = case.table.get(ENTRY_NUMBERS * entry as usize) {
                    if number > 4 {
                        refused_kinds[number as usize][kind as usize] += 1;
                    }
                }
                assert!(headings.iter().all(|&number| number == 0));
                assert!(pool.iter().all(|&cell| cell == EMPTY));
            }
        }
    }
    println!("{TABLES} tables, {tables_answered} answered, longest row {longest}");
    for (kind, count) in answered.iter().enumerate() {
        println!("kind {kind:2}: {count} entries answered");
    }
    for (number, count) in refused.iter().enumerate().skip(1) {
        println!(
            "refusal {number:2}: {count}, by kind {:?}",
            refused_kinds[number]
        );
    }
    println!("answered by heading numbers left over, from 0: {left_over:?}");
    assert!(left_over.iter().all(|&count| count >= 500));
    assert!(answered.iter().all(|&count| count >= 50));
    assert!(refused[1..].iter().all(|&count| count >= 50));
}

/// Rows stand one behind the other, labels never fall and keep their limits,
/// the distance isn't above the period, the slots are as many as the row has
/// labels, all else is empty.
fn check_lists(entries: usize, headings: &[u32], pool: &[i32]) {
    let mut used = 0;
    for heading in headings.chunks_exact(HEADING_NUMBERS).take(entries) {
        let &[start, period, distance, slots] = heading else {
            unreachable!()
        };
        assert_eq!(start as usize, used);
        assert!(1 <= distance && distance <= period);
        let cells = &pool[used..used + period as usize];
        used += period as usize;
        let labels: Vec<i32> = cells
            .iter()
            .copied()
            .filter(|&cell| cell != EMPTY)
            .collect();
        assert!(labels.windows(2).all(|pair| pair[0] <= pair[1]));
        let (first, last) = (labels[0], labels[labels.len() - 1]);
        assert!(-1_000_000_000 <= first && last <= 1_000_000_000);
        assert!(last <= first + distance as i32);
        assert_eq!(i64::from(slots), labels_per_turn(cells, distance.into()));
    }
    let beyond = &headings[HEADING_NUMBERS * entries..];
    assert!(beyond.iter().all(|&number| number == 0));
    assert!(pool[used..].iter().all(|&cell| cell == EMPTY));
}
