//! How long the check of finished lists takes: beside the conversion of the same
//! table, both by the proved core, and beside the second implementation.

use jogipahn::raw;
use jogipahn_compare::core;
use jogipahn_compare::second::check::{check, Verdict};
use jogipahn_compare::second::dates::TABLE_CELLS;
use jogipahn_compare::second::EMPTY;
use jogipahn_compare::timed::{civil, each_kind, heading_numbers, least_pool, Entry};
use jogipahn_compare::timing::{keep_memory, readable, take_turns};

/// Checks the lists that a conversion left, and converts into others.
fn measure(name: &str, entries: &[Entry], cells: usize) {
    let table = entries.as_flattened();
    let mut headings = vec![0; heading_numbers(table)];
    let mut pool = vec![EMPTY; cells];
    core::convert(table, &mut headings, &mut pool).expect("the table is answered");
    let (mut other_headings, mut other_pool) = (headings.clone(), pool.clone());
    assert_eq!(core::check(table, &headings, &pool), Verdict::Accepted);
    let rounds = take_turns(&mut [
        &mut || {
            std::hint::black_box(raw::check(table, &headings, &pool));
        },
        &mut || {
            std::hint::black_box(raw::convert(table, &mut other_headings, &mut other_pool));
        },
        &mut || {
            std::hint::black_box(check(table, &headings, &pool));
        },
    ]);
    println!(
        "{name:<40} pool {cells:>9}   check {:>10}   convert {:>10}   second {:>10}   check/convert {:.2}   check/second {:.2}",
        readable(rounds.best(0)),
        readable(rounds.best(1)),
        readable(rounds.best(2)),
        rounds.ratio(0, 1),
        rounds.ratio(0, 2),
    );
}

fn main() {
    keep_memory();
    println!("Best times of many rounds, and medians of the ratios in each. Checked are the lists that a conversion leaves, so that");
    println!("every entry is compared to its end; converted is the same table. The second implementation converts and compares.");

    println!("\nCivil calendars with months and years");
    for (name, by_the_hour, years) in [
        ("1 year by the day", false, 1),
        ("4 years by the hour", true, 4),
        ("100 years by the day", false, 100),
    ] {
        let entries = civil(by_the_hour, years);
        measure(name, &entries, least_pool(entries.as_flattened()));
    }
    let table = core::civil_table();
    let (entries, _) = table.as_chunks();
    measure(
        "the civil table, 400 years by the day",
        entries,
        TABLE_CELLS,
    );

    println!("\nEach kind (* a long operand stands in the pool too, and rows are half as long)");
    for (name, entries) in each_kind(1019, 1021, 509, 1013, 149_000) {
        measure(name, &entries, least_pool(entries.as_flattened()));
    }
}
