//! How long questions take: the proved core beside the second implementation.

use jogipahn_compare::core;
use jogipahn_compare::second::questions::{self as second, Row};
use jogipahn_compare::second::{CELL_LIMIT, EMPTY};
use jogipahn_compare::timing::{keep_memory, readable, take_turns, Rounds};

struct Cells {
    cells: Vec<i32>,
    distance: i64,
}

impl Cells {
    /// A row written out over as many periods as fit in so many cells.
    fn repeated(period: &[i32], distance: i64, most: usize) -> Self {
        let times = (most / period.len()).max(1);
        let mut cells = Vec::with_capacity(times * period.len());
        for turn in 0..times {
            let risen = turn as i32 * distance as i32;
            cells.extend(
                period
                    .iter()
                    .map(|&cell| if cell == EMPTY { EMPTY } else { cell + risen }),
            );
        }
        Cells {
            cells,
            distance: times as i64 * distance,
        }
    }

    /// One slot that fills the row.
    fn one_slot(length: usize) -> Self {
        Cells {
            cells: vec![0; length],
            distance: 1,
        }
    }

    fn row(&self) -> Row<'_> {
        Row {
            cells: &self.cells,
            period: self.cells.len() as i64,
            distance: self.distance,
        }
    }
}

fn report(name: &str, cells: usize, rounds: &Rounds) {
    println!(
        "{name:<46} {cells:>9} cells   core {:>10}   second {:>10}   core/second {:.2}",
        readable(rounds.best(0)),
        readable(rounds.best(1)),
        rounds.ratio(0, 1)
    );
}

fn up_instant(name: &str, row: Row, t: i64) {
    assert_eq!(core::up_instant(row, t), second::up_instant(row, t));
    let proved = core::reader(row);
    let rounds = take_turns(&mut [
        &mut || {
            std::hint::black_box(std::hint::black_box(proved).label(t)).ok();
        },
        &mut || {
            std::hint::black_box(second::up_instant(std::hint::black_box(row), t)).ok();
        },
    ]);
    report(name, row.cells.len(), &rounds);
}

fn up_granule(name: &str, g: Row, h: Row, z: i64) {
    assert_eq!(core::up_granule(g, h, z), second::up_granule(g, h, z));
    let (proved, proved_h) = (core::reader(g), core::reader(h));
    let rounds = take_turns(&mut [
        &mut || {
            std::hint::black_box(std::hint::black_box(proved).up(proved_h, z)).ok();
        },
        &mut || {
            std::hint::black_box(second::up_granule(std::hint::black_box(g), h, z)).ok();
        },
    ]);
    report(name, g.cells.len(), &rounds);
}

fn down(name: &str, h: Row, g: Row, z: i64, most: usize) {
    let mut parts = vec![0; most];
    let mut expected = vec![0; most];
    assert_eq!(
        core::down(h, g, z, &mut parts),
        second::down(h, g, z, &mut expected)
    );
    assert_eq!(parts, expected);
    let (proved, proved_g) = (core::reader(h), core::reader(g));
    let rounds = take_turns(&mut [
        &mut || {
            std::hint::black_box(std::hint::black_box(proved).down(proved_g, z, &mut parts)).ok();
        },
        &mut || {
            std::hint::black_box(second::down(std::hint::black_box(h), g, z, &mut expected)).ok();
        },
    ]);
    report(name, h.cells.len(), &rounds);
}

/// Many instants in one call, beside as many single questions to the core.
fn up_instants(name: &str, row: Row, count: i64) {
    let proved = core::reader(row);
    let ts: Vec<i64> = (0..count).map(|i| i * 1_009 - 400_000).collect();
    let one_by_one = || ts.iter().map(|&t| proved.label(t)).collect::<Vec<_>>();
    assert_eq!(proved.labels(&ts), one_by_one());
    let rounds = take_turns(&mut [
        &mut || {
            std::hint::black_box(std::hint::black_box(proved).labels(&ts));
        },
        &mut || {
            std::hint::black_box(one_by_one());
        },
    ]);
    println!(
        "{name:<46} {:>9} cells   batch {:>9}   single {:>10}   batch/single {:.5}",
        row.cells.len(),
        readable(rounds.best(0)),
        readable(rounds.best(1)),
        rounds.ratio(0, 1)
    );
}

fn main() {
    keep_memory();
    println!("Best times of many rounds, and medians of the ratios in each; each question tests its rows by rule 13 first.");
    println!(
        "The list of parts is as long as needed and not cleared between runs, on either side."
    );
    let days = [EMPTY, 1, 2, 3, 4, 5, EMPTY];
    let weeks = [EMPTY, 1, 1, 1, 1, 1, EMPTY];
    let bottom = Cells::repeated(&[0], 1, 1);
    for most in [7, 4096, 1 << 17, 1 << 20] {
        println!();
        let days = Cells::repeated(&days, 5, most);
        let weeks = Cells::repeated(&weeks, 1, most);
        let long = Cells::one_slot(most.min(CELL_LIMIT));
        up_instant("up from an instant, working days", days.row(), 123_456_789);
        up_instant(
            "up from an instant, one long slot",
            long.row(),
            -987_654_321,
        );
        up_granule(
            "up from a working day to its week",
            days.row(),
            weeks.row(),
            1_234,
        );
        up_granule("up from a long slot to itself", long.row(), long.row(), 77);
        down(
            "down from a week to its working days",
            weeks.row(),
            days.row(),
            1_234,
            5,
        );
        down(
            "down from a long slot to instants",
            long.row(),
            bottom.row(),
            -77,
            most,
        );
        down(
            "down from a long slot to itself",
            long.row(),
            long.row(),
            77,
            1,
        );
    }
    println!();
    for most in [7, 4096, 146_097] {
        let days = Cells::repeated(&days, 5, most);
        up_instants("1,000 instants, working days", days.row(), 1_000);
    }
}
