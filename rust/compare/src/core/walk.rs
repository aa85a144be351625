//! Conversion in steps, by the proved core.

use jogipahn::{raw, walk, Rows, Table};

use super::numbers;
use crate::second::walk::Progress;

/// A walk over a table, by its state as C has it, which may be any numbers.
#[derive(Clone, Debug, PartialEq, Eq)]
pub struct Walk {
    pub state: Vec<i64>,
}

impl Walk {
    /// Begins a walk with a state of the right length, dirty before.
    pub fn start(
        table: &[i32],
        headings: &mut [u32],
        pool: &mut [i32],
        dirt: i64,
    ) -> (Self, Progress) {
        let mut walk = Walk {
            state: vec![dirt; 8],
        };
        let answer = walk.start_in(table, headings, pool);
        (walk, progress(answer))
    }

    /// One call.
    pub fn step(&mut self, table: &[i32], headings: &mut [u32], pool: &mut [i32]) -> Progress {
        progress(self.step_in(table, headings, pool))
    }

    /// Begins a walk in this state, of any length: the number that is answered.
    pub fn start_in(&mut self, table: &[i32], headings: &mut [u32], pool: &mut [i32]) -> i64 {
        raw::walk_start(table, headings, pool, &mut self.state)
    }

    /// One call in this state, of any length: the number that is answered.
    pub fn step_in(&mut self, table: &[i32], headings: &mut [u32], pool: &mut [i32]) -> i64 {
        raw::walk_step(table, headings, pool, &mut self.state)
    }
}

fn progress(answer: i64) -> Progress {
    match answer {
        0 => Progress::More,
        1 => Progress::Done,
        100..=1363 => Progress::Refused(answer as u32 / 100, answer as u32 % 100),
        _ => panic!("the core answered {answer}, which means nothing"),
    }
}

/// The rows of a walk to its end, in lists that are the crate's own.
pub fn walked(table: &[i32], cells: usize) -> Result<Rows, (u32, u32)> {
    let table = Table::from_numbers(table);
    let walk = walk::Walk::start(&table, cells);
    walk.and_then(walk::Walk::finish).map_err(numbers)
}
