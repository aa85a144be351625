//! Sides of a law: an operands' table with entries added to it.

use jogipahn::{Reader, Row};
use jogipahn_compare::core::convert;
use jogipahn_compare::second::{ENTRY_NUMBERS, HEADING_NUMBERS};

/// What each lent list holds before.
const DIRT: i32 = 77;

/// One side of a law: the operands' table and what is added to it.
#[derive(Clone)]
pub struct Side {
    pub table: Vec<i32>,
    pub result: i32,
}

impl Side {
    /// A side that is only an operand.
    pub fn of(operands: &[i32], result: i32) -> Self {
        Side {
            table: operands.to_vec(),
            result,
        }
    }

    /// Adds an entry over the result so far and perhaps another operand.
    #[allow(dead_code)]
    pub fn then(self, kind: i32, second: i32, numbers: [i32; 3]) -> Self {
        let first = self.result;
        self.with(kind, first, second, numbers)
    }

    /// Adds an entry over any operands.
    pub fn entry(self, kind: i32, first: i32, second: i32) -> Self {
        self.with(kind, first, second, [0; 3])
    }

    /// Adds an entry over any operands, with its own numbers.
    pub fn with(mut self, kind: i32, first: i32, second: i32, numbers: [i32; 3]) -> Self {
        self.table.extend([kind, first, second]);
        self.table.extend(numbers);
        self.result = self.entries() as i32 - 1;
        self
    }

    pub fn entries(&self) -> usize {
        self.table.len() / ENTRY_NUMBERS
    }

    /// The row of the result, in a pool of so many cells, by the proved core.
    pub fn row(&self, cells: usize) -> Result<Row, (u32, u32)> {
        let mut headings = vec![DIRT as u32; HEADING_NUMBERS * self.entries()];
        let mut pool = vec![DIRT; cells];
        convert(&self.table, &mut headings, &mut pool)?;
        let heading = &headings[HEADING_NUMBERS * self.result as usize..];
        let &[start, period, distance, slots] = &heading[..HEADING_NUMBERS] else {
            unreachable!()
        };
        let cells = &pool[start as usize..][..period as usize];
        let reader = Reader::new(cells, period.into(), distance.into());
        Ok(Row::new(reader, slots))
    }
}
