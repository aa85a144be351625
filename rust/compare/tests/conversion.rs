//! Conversion: the proved core against the second implementation.

use jogipahn_compare::core;
use jogipahn_compare::random::Random;
use jogipahn_compare::rows::labels_per_turn;
use jogipahn_compare::second::{self, ENTRY_NUMBERS, HEADING_NUMBERS};
use jogipahn_compare::tables::{case, dirt};

/// So many tables are given to both.
const TABLES: u64 = 60_000;

#[test]
fn tables_are_converted_alike() {
    let mut answered = [0; 13];
    let mut refused = [0; 13];
    let mut tables_answered = 0;
    let mut long_tables = 0;
    let mut wide_tables = 0;
    let mut longest_pools = 0;
    let mut left_over = [0; HEADING_NUMBERS];
    let mut not_full = 0;
    for seed in 0..TABLES {
        let mut random = Random::new(seed);
        let case = case(&mut random);
        let mut expected_headings = vec![dirt(&mut random) as u32; case.headings];
        let mut expected_pool = vec![dirt(&mut random); case.pool];
        let mut headings: Vec<u32> = (0..case.headings).map(|_| random.bits() as u32).collect();
        let mut pool = vec![dirt(&mut random); case.pool];
        if random.percent(20) {
            // Dirt that differs from cell to cell.
            pool.fill_with(|| random.any_i32());
        }
        let expected = second::convert(&case.table, &mut expected_headings, &mut expected_pool);
        let answer = core::convert(&case.table, &mut headings, &mut pool);
        assert_eq!(answer, expected, "seed {seed}: {case:?}");
        assert_eq!(headings, expected_headings, "seed {seed}: {case:?}");
        if let Some(cell) = (0..case.pool).find(|&cell| pool[cell] != expected_pool[cell]) {
            panic!(
                "seed {seed}: cell {cell} is {} and should be {}: {case:?}",
                pool[cell], expected_pool[cell]
            );
        }
        match expected {
            Ok(()) => {
                tables_answered += 1;
                wide_tables += u64::from(case.table.len() > ENTRY_NUMBERS * 32);
                longest_pools += u64::from(case.pool > 1_048_576);
                left_over[case.headings % HEADING_NUMBERS] += 1;
                let entries = case.table.len() / ENTRY_NUMBERS;
                let told = headings.chunks_exact(HEADING_NUMBERS).take(entries);
                long_tables += u64::from(told.clone().any(|heading| heading[1] >= 100_000));
                for heading in told {
                    let fewer = slots_are_those_of_the_row(heading, &pool);
                    not_full += u64::from(fewer);
                }
                for entry in case.table.chunks_exact(ENTRY_NUMBERS) {
                    answered[entry[0] as usize] += 1;
                }
            }
            Err((number, _)) => refused[number as usize] += 1,
        }
    }
    println!("{TABLES} tables, {tables_answered} answered, {long_tables} with rows of 100,000 cells or more");
    println!("{wide_tables} answered with more than 32 entries, {longest_pools} in more than 1,048,576 cells");
    println!("{not_full} headings with fewer slots than the distance");
    println!("tables answered by heading numbers left over, from 0: {left_over:?}");
    println!("entries answered by kind from 0: {answered:?}");
    println!("tables refused by number from 1: {:?}", &refused[1..]);
    assert!(wide_tables >= 100 && longest_pools >= 20);
    assert!(not_full >= 10_000);
    assert!(left_over.iter().all(|&count| count >= 1_000));
    assert!(answered.iter().all(|&count| count >= 500));
    assert!(refused[1..].iter().all(|&count| count >= 500));
}

/// A heading's slots are the labels that a turn of its row has. Says whether
/// they are fewer than the distance.
fn slots_are_those_of_the_row(heading: &[u32], pool: &[i32]) -> bool {
    let &[start, period, distance, slots] = heading else {
        unreachable!()
    };
    let cells = &pool[start as usize..(start + period) as usize];
    assert_eq!(i64::from(slots), labels_per_turn(cells, distance.into()));
    slots < distance
}
