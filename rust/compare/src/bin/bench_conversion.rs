//! How long conversion takes: the proved core beside the second implementation.

use jogipahn::raw;
use jogipahn_compare::core;
use jogipahn_compare::second::dates::TABLE_CELLS;
use jogipahn_compare::second::{self, EMPTY, HEADING_NUMBERS};
use jogipahn_compare::timed::{
    civil, each_kind, group, heading_numbers, least_pool, Entry, BOTTOM,
};
use jogipahn_compare::timing::{keep_memory, readable, take_turns, Rounds};

struct Lists {
    headings: Vec<u32>,
    pool: Vec<i32>,
}

/// A table with lists for either side.
struct Case {
    table: Vec<i32>,
    core: Lists,
    second: Lists,
    told: String,
}

impl Case {
    /// A pool of so many cells. Both sides must leave the same.
    fn new(name: &str, entries: &[Entry], cells: usize) -> Self {
        let table = entries.as_flattened().to_vec();
        let lists = || Lists {
            headings: vec![0; heading_numbers(&table)],
            pool: vec![EMPTY; cells],
        };
        let (mut core, mut second) = (lists(), lists());
        let answer = core::convert(&table, &mut core.headings, &mut core.pool);
        assert_eq!(
            answer,
            second::convert(&table, &mut second.headings, &mut second.pool)
        );
        assert!(
            core.headings == second.headings && core.pool == second.pool,
            "{name}: lists differ"
        );
        let told = match answer {
            Ok(()) => {
                let last = &core.headings[core.headings.len() - HEADING_NUMBERS..];
                format!("last row {:>9}", last[1])
            }
            Err((number, entry)) => format!("refused {number} at {entry:<5}"),
        };
        Case {
            table,
            core,
            second,
            told,
        }
    }

    /// A pool just long enough.
    fn fitting(name: &str, entries: &[Entry]) -> Self {
        let cells = least_pool(entries.as_flattened());
        Case::new(name, entries, cells)
    }

    fn cells(&self) -> usize {
        self.core.pool.len()
    }

    /// Says how long the two sides took that are measured as these.
    fn report(&self, name: &str, rounds: &Rounds, core: usize, second: usize) {
        println!(
            "{name:<52} pool {:>9}   {}   core {:>10}   second {:>10}   core/second {:.2}",
            self.cells(),
            self.told,
            readable(rounds.best(core)),
            readable(rounds.best(second)),
            rounds.ratio(core, second)
        );
    }
}

fn run_core(table: &[i32], lists: &mut Lists) {
    std::hint::black_box(raw::convert(table, &mut lists.headings, &mut lists.pool));
}

fn run_second(table: &[i32], lists: &mut Lists) {
    std::hint::black_box(second::convert(table, &mut lists.headings, &mut lists.pool)).ok();
}

/// Measures both sides.
fn measure(name: &str, mut case: Case) {
    let rounds = take_turns(
        &mut [&mut || run_core(&case.table, &mut case.core), &mut || {
            run_second(&case.table, &mut case.second)
        }],
    );
    case.report(name, &rounds, 0, 1);
}

/// Measures both sides at three sizes in turn, and says how they grow from one
/// to the next.
fn measure_growth(name: &str, mut cases: [Case; 3]) {
    let [small, large, longest] = &mut cases;
    let rounds = take_turns(&mut [
        &mut || run_core(&small.table, &mut small.core),
        &mut || run_second(&small.table, &mut small.second),
        &mut || run_core(&large.table, &mut large.core),
        &mut || run_second(&large.table, &mut large.second),
        &mut || run_core(&longest.table, &mut longest.core),
        &mut || run_second(&longest.table, &mut longest.second),
    ]);
    for (size, case) in cases.iter().enumerate() {
        case.report(name, &rounds, 2 * size, 2 * size + 1);
        if size > 0 {
            println!(
                "{:<52} grows by the factor   cells {:.1}   core {:.1}   second {:.1}",
                "",
                case.cells() as f64 / cases[size - 1].cells() as f64,
                rounds.ratio(2 * size, 2 * size - 2),
                rounds.ratio(2 * size + 1, 2 * size - 1)
            );
        }
    }
}

fn main() {
    keep_memory();
    println!("Best times of many rounds, and medians of the ratios in each. Both sides convert the same table into lists of");
    println!("their own, which aren't cleared between runs on either side; each run writes every cell and heading. What the");
    println!("second implementation allocates is kept for its next run.");

    println!("\nCivil calendars with months and years");
    for (name, by_the_hour, years) in [
        ("1 year by the day", false, 1),
        ("4 years by the day", false, 4),
        ("1 year by the hour", true, 1),
        ("4 years by the hour", true, 4),
        ("100 years by the day", false, 100),
    ] {
        measure(name, Case::fitting(name, &civil(by_the_hour, years)));
    }
    let name = "the civil table, 400 years by the day";
    let table = core::civil_table();
    let (entries, _) = table.as_chunks();
    measure(name, Case::new(name, entries, TABLE_CELLS));

    println!("\nEach kind (* a long operand stands in the pool too, and rows are half as long)");
    let small = each_kind(359, 367, 181, 359, 18_700);
    let large = each_kind(1019, 1021, 509, 1013, 149_000);
    let longest = each_kind(2039, 2053, 1021, 2039, 598_000);
    for (((name, small), (_, large)), (_, longest)) in small.iter().zip(&large).zip(&longest) {
        let tables = [small, large, longest];
        measure_growth(name, tables.map(|table| Case::fitting(name, table)));
    }

    println!("\nWorst cases (the pool holds no more than two rows of 524,288 cells)");
    for (name, entries) in worst_cases() {
        measure(name, Case::fitting(name, &entries));
    }

    // Bottom's row has one cell; what grows with the pool is the clearing.
    println!("\nClearing a pool");
    let bottom = |cells| Case::new("bottom", &[BOTTOM], cells);
    let sizes = [1 << 17, 1 << 20, 1 << 22];
    measure_growth("bottom in a long pool", sizes.map(bottom));
}

/// What would take long if it weren't done in time linear in the row.
fn worst_cases() -> Vec<(&'static str, Vec<Entry>)> {
    let half = group(0, 520_000);
    let by_half = |entry: Entry| vec![BOTTOM, half, entry];
    // 500,001 coarse slots a turn and x = 1,000,000: lcm 500,001,000,000.
    let coarse = [3, 0, 0, 500_001, 1, 1];
    let altered = |x, z| vec![BOTTOM, coarse, [3, 0, 1, x, 1, z]];
    // 262,080 has very many divisors.
    let (first, rest) = ([6, 0, 1, 1, 1, 0], [6, 0, 1, 2, 1_000_000, 0]);
    let joined = vec![BOTTOM, group(0, 262_080), first, rest, [9, 2, 3, 0, 0, 0]];
    vec![
        (
            "a slot of 520,000 instants combined with itself",
            by_half([4, 1, 1, 0, 0, 0]),
        ),
        (
            "instants combined into a slot of 520,000",
            by_half([4, 1, 0, 0, 0, 0]),
        ),
        (
            "a slot of 520,000 anchored at itself",
            by_half([5, 1, 1, 0, 0, 0]),
        ),
        (
            "select-down, the first of 520,000",
            by_half([6, 0, 1, 1, 1, 0]),
        ),
        (
            "select-down, the last 519,999 of 520,000",
            by_half([6, 0, 1, -519_999, 1_000_000, 0]),
        ),
        (
            "select-down, long slots by themselves",
            by_half([6, 1, 1, 1, 1, 0]),
        ),
        (
            "select-up, a slot of 520,000 by instants",
            by_half([7, 1, 0, 0, 0, 0]),
        ),
        (
            "select-by-meeting, instants by a slot of 520,000",
            by_half([8, 0, 1, -1, 1, 0]),
        ),
        (
            "select-by-meeting, a slot of 520,000 by instants",
            by_half([8, 1, 0, 1, 1, 0]),
        ),
        (
            "union of long slots with themselves",
            by_half([9, 1, 1, 0, 0, 0]),
        ),
        (
            "alter, lcm(A, x) = 500,001,000,000, too long",
            altered(1_000_000, 1),
        ),
        ("alter, the same, by too much", altered(1_000_000, -1)),
        ("alter back to bottom", altered(500_001, -1)),
        ("union shortened from 262,080 cells to 1", joined),
        ("all days but 110,880 of 332,640", all_but(110_880)),
        ("all days but 2,520 of 332,640", all_but(2_520)),
        ("all days but 1 of 332,640", all_but(1)),
    ]
}

/// Bottom less some days at the end of each 332,640: P and N have very many
/// common divisors, and the row is regular up to those days.
fn all_but(closed: i32) -> Vec<Entry> {
    let days = 332_640;
    let last = [6, 0, 1, days - closed, closed, 0];
    vec![BOTTOM, group(0, days), last, [11, 0, 2, 0, 0, 0]]
}
