//! Random tables and rows.
//!
//! A table is built entry by entry beside its conversion, so that most entries
//! get operands that suit them: full ones, aligned pairs, calendars of one
//! stock. A table may aim at a refusal; entries that are refused otherwise are
//! mostly dropped again.

use crate::random::Random;
use crate::second::{
    convert_entry, Stored, CELL_LIMIT, EMPTY, ENTRY_LIMIT, ENTRY_NUMBERS, HEADING_NUMBERS,
    LABEL_LIMIT,
};

/// What conversion is called with; the lists may hold anything before.
#[derive(Clone, Debug)]
pub struct Case {
    pub table: Vec<i32>,
    /// The length of the list of headings.
    pub headings: usize,
    /// The length of the pool.
    pub pool: usize,
}

/// A random case. One of a hundred has rows of up to a million cells, some of
/// these a pool of four million.
pub fn case(random: &mut Random) -> Case {
    if random.below(100) == 0 {
        let cells = random.choose(&[1_048_576, 1_048_576, 1_048_576, CELL_LIMIT]);
        case_within(random, cells, true)
    } else {
        let cells = random.choose(&[40, 400, 400, 4000, 4000]);
        case_within(random, cells, false)
    }
}

/// A random case that mostly has that many cells, with rows near a million
/// cells if it is to be long.
pub fn case_within(random: &mut Random, cells: usize, long: bool) -> Case {
    let aim = match random.below(100) {
        0..=44 => None,
        45..=51 => Some(random.range(1, 3)),
        _ => Some(random.range(4, 12)),
    };
    let mut builder = Builder::new(cells);
    builder.grow(random, long, aim);
    let answered = builder.refusal.is_none();
    let mut pool = match random.below(10) {
        // Least rows alone; working rows may not fit.
        0 if answered => builder.used,
        // Just enough, and one cell too few.
        1..=3 if answered => builder.need(),
        4 if answered => builder.need() - 1,
        5 => random.below(cells + 1),
        _ => cells,
    };
    let mut table = builder.table;
    if !answered && random.percent(30) {
        // Entries behind a refused one aren't looked at.
        for _ in 0..random.range(1, 3) {
            if table.len() < ENTRY_LIMIT * ENTRY_NUMBERS {
                table.extend((0..ENTRY_NUMBERS).map(|_| random.any_i32()));
            }
        }
    }
    if random.percent(3) {
        let place = random.below(table.len());
        table[place] = random.any_i32();
    }
    let entries = table.len() / ENTRY_NUMBERS;
    let mut headings = HEADING_NUMBERS * entries + random.choose(&[0, 0, 0, 1, 2, 3, 10]);
    match aim {
        Some(1) => {
            spoil_length(&mut table, random);
            // Other refusals of the first three may apply as well.
            if random.percent(20) {
                headings = random.below(headings + 1);
                pool += random.choose(&[0, CELL_LIMIT + 1]);
            }
        }
        Some(2) => {
            headings = random.below(HEADING_NUMBERS * entries);
            if random.percent(10) {
                pool += CELL_LIMIT + 1;
            }
        }
        Some(3) => pool = CELL_LIMIT + 1 + random.choose(&[0, 0, 1, 5, 1000]),
        _ => {}
    }
    Case {
        table,
        headings,
        pool,
    }
}

fn spoil_length(table: &mut Vec<i32>, random: &mut Random) {
    match random.below(4) {
        0 => table.clear(),
        1 => table.truncate(table.len() - random.range(1, 5) as usize),
        2 => table.extend((0..random.range(1, 5)).map(|_| 0)),
        _ => table.resize(ENTRY_NUMBERS * (ENTRY_LIMIT + 1 + random.below(4)), 0),
    }
}

/// Numbers to fill a lent list with before a call.
pub fn dirt(random: &mut Random) -> i32 {
    random.choose(&[0, 1, -1, 7, EMPTY, i32::MAX, 123_456_789])
}

/// An answered table and the rows of its entries.
pub struct Answered {
    pub table: Vec<i32>,
    pool: Vec<i32>,
    known: Vec<Known>,
}

/// A random table that is answered in a pool of that many cells, with rows
/// near a million cells if it is to be long.
pub fn answered(random: &mut Random, cells: usize, long: bool) -> Answered {
    let mut builder = Builder::new(cells);
    builder.grow(random, long, None);
    // A refused entry at the end goes.
    builder.table.truncate(ENTRY_NUMBERS * builder.known.len());
    Answered {
        table: builder.table,
        pool: builder.pool,
        known: builder.known,
    }
}

impl Answered {
    /// How many entries there are.
    pub fn entries(&self) -> usize {
        self.known.len()
    }

    /// The cells of an entry's row.
    pub fn cells(&self, entry: usize) -> &[i32] {
        let row = &self.known[entry].row;
        &self.pool[row.start..row.start + row.period]
    }

    pub fn distance(&self, entry: usize) -> i64 {
        self.known[entry].row.distance
    }

    pub fn is_full(&self, entry: usize) -> bool {
        self.known[entry].row.is_full()
    }

    /// Whether both entries have slots and labels of the same earlier one, so
    /// that kinds 9 to 11 take them.
    pub fn are_kin(&self, first: usize, second: usize) -> bool {
        self.known[first].stock == self.known[second].stock
    }

    /// The entries whose slots make up the entry's slots, as far as the table
    /// shows it.
    pub fn finer(&self, entry: usize) -> Vec<usize> {
        std::iter::successors(self.known[entry].fine, |&finer| self.known[finer].fine).collect()
    }
}

/// What is known of a finished entry.
struct Known {
    row: Stored,
    /// The entry whose slots, with their labels, are this one's too.
    stock: usize,
    /// An entry whose slots make up this one's slots.
    fine: Option<usize>,
    /// The shortest pool in which the entry is answered.
    need: usize,
}

struct Builder {
    table: Vec<i32>,
    known: Vec<Known>,
    pool: Vec<i32>,
    /// Cells of the pool that hold rows.
    used: usize,
    /// The refusal that the table ends in.
    refusal: Option<u32>,
}

impl Builder {
    fn new(cells: usize) -> Self {
        Builder {
            table: Vec::new(),
            known: Vec::new(),
            pool: vec![EMPTY; cells],
            used: 0,
            refusal: None,
        }
    }

    /// Adds entries until the table is long enough or a refusal is kept.
    fn grow(&mut self, random: &mut Random, long: bool, aim: Option<i64>) {
        let wanted = match random.below(20) {
            _ if long => random.range(2, 5),
            0 => random.range(20, ENTRY_LIMIT as i64),
            1..=5 => random.range(1, 3),
            _ => random.range(4, 12),
        } as usize;
        let aim = aim.filter(|&aim| aim > 3).map(|aim| aim as u32);
        self.offer(&[0; 6], None, random);
        let mut base = 0;
        if aim == Some(11) && random.percent(70) {
            base = self.far_days(random);
        }
        if aim == Some(9) && random.percent(30) {
            self.move_days_apart(random);
        }
        if long && random.percent(60) {
            let x = random.choose(&[50_000, 400_000, 1_000_000]);
            let x = random.range(1000, x) as i32;
            self.offer(&[1, base, 0, x, 0, 0], None, random);
        }
        for _ in 0..random.range(0, 2) {
            let x = random.range(2, 12) as i32;
            if self.known.len() < wanted {
                self.offer(&[1, base, 0, x, 0, 0], None, random);
            }
        }
        let mut tries = 0;
        while self.refusal.is_none() && self.known.len() < wanted && tries < 4 * wanted {
            tries += 1;
            let early = self.known.len() < wanted / 2;
            let entry = match aim {
                Some(aim) if !early && random.percent(50) => self.entry_for(aim, random),
                _ => self.suitable_entry(random, long),
            };
            self.offer(&entry, aim, random);
        }
        tries = 0;
        while self.refusal.is_none() && self.known.len() < ENTRY_LIMIT && tries < 20 {
            let Some(aim) = aim else {
                return;
            };
            tries += 1;
            let entry = self.entry_for(aim, random);
            self.offer(&entry, Some(aim), random);
        }
    }

    /// Days with labels far out, for later entries to go too far, and perhaps
    /// selections of these with periods that make long spans together. Gives
    /// the days' entry.
    fn far_days(&mut self, random: &mut Random) -> i32 {
        let x = LABEL_LIMIT - random.range(0, 40) as i32;
        self.offer(&[2, 0, 0, random.choose(&[x, x, -x]), 0, 0], None, random);
        let days = self.known.len() as i32 - 1;
        if random.percent(70) {
            for length in [random.range(2, 5), random.range(6, 9)] {
                let groups = self.known.len() as i32;
                self.offer(&[1, days, 0, length as i32, 0, 0], None, random);
                let (x, y) = Self::pick(random);
                self.offer(&[6, days, groups, x, y, 0], None, random);
            }
        } else {
            let groups = self.known.len() as i32;
            self.offer(&[1, 0, 0, random.range(2, 3) as i32, 0, 0], None, random);
            self.offer(&[2, groups, 0, x, 0, 0], None, random);
        }
        days
    }

    /// Two selections of days, one of them moved, and perhaps an entry that
    /// would have labels fall: inside a turn or from one to the next. Nothing
    /// but bottom has to be there before.
    fn move_days_apart(&mut self, random: &mut Random) {
        let weeks = self.known.len() as i32;
        let length = random.range(2, 8) as i32;
        let first = random.range(1, length.into()) as i32;
        let second = random.range(1, length.into()) as i32;
        let moved = random.choose(&[1, 2, length, 2 * length, -1, -length, -2 * length]);
        let entries = [
            [1, 0, 0, length, 0, 0],
            [6, 0, weeks, first, random.range(1, 3) as i32, 0],
            [6, 0, weeks, second, random.range(1, 2) as i32, 0],
            [2, weeks + 2, 0, moved, 0, 0],
        ];
        if entries.iter().all(|entry| self.add(entry).is_ok()) && random.percent(60) {
            let kind = random.range(9, 11) as i32;
            let (one, other) = random.choose(&[(1, 3), (3, 1)]);
            self.offer(
                &[kind, weeks + one, weeks + other, 0, 0, 0],
                Some(9),
                random,
            );
        }
    }

    /// Takes the entry in if it is answered. A refused one is kept, and ends
    /// the table, if it is what is aimed at, and rarely otherwise.
    fn offer(&mut self, entry: &[i32; 6], aim: Option<u32>, random: &mut Random) {
        if self.refusal.is_some() {
            return;
        }
        match self.add(entry) {
            // A calendar that is there already is of less interest.
            Ok(()) if self.last_is_repeated() && random.percent(80) => self.remove_last(),
            Ok(()) => {}
            Err(refusal) => {
                if aim == Some(refusal) || random.below(200) == 0 {
                    self.table.extend(entry);
                    self.refusal = Some(refusal);
                }
            }
        }
    }

    fn last_is_repeated(&self) -> bool {
        let cells = |known: &Known| &self.pool[known.row.start..known.row.start + known.row.period];
        let Some((last, earlier)) = self.known.split_last() else {
            return false;
        };
        earlier
            .iter()
            .any(|known| known.row.distance == last.row.distance && cells(known) == cells(last))
    }

    fn remove_last(&mut self) {
        if let Some(known) = self.known.pop() {
            self.used = known.row.start;
            self.table.truncate(ENTRY_NUMBERS * self.known.len());
        }
    }

    fn add(&mut self, entry: &[i32; 6]) -> Result<(), u32> {
        let stored: Vec<Stored> = self.known.iter().map(|known| known.row).collect();
        let (rows, room) = self.pool.split_at_mut(self.used);
        let row = convert_entry(entry, &stored, rows, room)?;
        let [kind, first, second, ..] = *entry;
        let (first, second) = (first as usize, second as usize);
        let own = self.known.len();
        let stock = match kind {
            6..=11 => self.known[first].stock,
            _ => own,
        };
        let fine = match kind {
            1 | 3 | 5 => Some(first),
            2 | 12 => self.known[first].fine,
            _ => None,
        };
        let span = match kind {
            0 => 1,
            1 | 2 | 12 => self.known[first].row.period,
            _ => lcm(self.known[first].row.period, self.known[second].row.period),
        };
        let need = self.used + span.max(row.working_period);
        self.used += row.period;
        self.known.push(Known {
            row,
            stock,
            fine,
            need,
        });
        self.table.extend(entry);
        Ok(())
    }

    /// The shortest pool in which the table is answered.
    fn need(&self) -> usize {
        self.known.iter().map(|known| known.need).max().unwrap_or(0)
    }

    fn is_full(&self, entry: usize) -> bool {
        self.known[entry].row.is_full()
    }

    fn any(&self, random: &mut Random) -> i32 {
        // Later entries are the more interesting ones.
        let count = self.known.len();
        random.below(count).max(random.below(count)) as i32
    }

    fn any_full(&self, random: &mut Random) -> i32 {
        let full: Vec<i32> = (0..self.known.len())
            .filter(|&entry| self.is_full(entry))
            .map(|entry| entry as i32)
            .collect();
        // Bottom is always there, and full.
        random.choose(&full)
    }

    fn any_not_full(&self, random: &mut Random) -> Option<i32> {
        let others: Vec<i32> = (0..self.known.len())
            .filter(|&entry| !self.is_full(entry))
            .map(|entry| entry as i32)
            .collect();
        (!others.is_empty()).then(|| random.choose(&others))
    }

    /// The entries of one stock.
    fn stock(&self, stock: usize) -> Vec<i32> {
        (0..self.known.len())
            .filter(|&entry| self.known[entry].stock == stock)
            .map(|entry| entry as i32)
            .collect()
    }

    /// Two entries whose labels are of one stock, different ones if there are.
    fn kin(&self, random: &mut Random) -> (i32, i32) {
        for _ in 0..8 {
            let first = self.any(random);
            let second = random.choose(&self.stock(self.known[first as usize].stock));
            if first != second {
                return (first, second);
            }
        }
        let alone = self.any(random);
        (alone, alone)
    }

    /// Two entries whose labels rise equally fast, different ones if there are.
    fn even(&self, random: &mut Random) -> (i32, i32) {
        for _ in 0..12 {
            let (first, second) = (self.any(random), self.any(random));
            let (a, b) = (
                &self.known[first as usize].row,
                &self.known[second as usize].row,
            );
            if first != second && a.distance * b.period as i64 == b.distance * a.period as i64 {
                return (first, second);
            }
        }
        let alone = self.any(random);
        (alone, alone)
    }

    /// A full entry and a full one that it is made up of: fine, coarse.
    fn aligned(&self, random: &mut Random) -> (i32, i32) {
        let coarse = self.any_full(random);
        let mut fine = coarse;
        while let Some(finer) = self.known[fine as usize].fine {
            if fine != coarse && self.is_full(fine as usize) && random.percent(40) {
                break;
            }
            fine = finer as i32;
        }
        (fine, coarse)
    }

    /// A pair for combining and selecting, the finer one mostly first.
    fn nested(&self, random: &mut Random) -> (i32, i32) {
        let made_up: Vec<i32> = (0..self.known.len())
            .filter(|&entry| self.known[entry].fine.is_some())
            .map(|entry| entry as i32)
            .collect();
        if made_up.is_empty() || random.percent(35) {
            return (self.any(random), self.any(random));
        }
        let coarse = random.choose(&made_up);
        let mut fine = coarse as usize;
        while let Some(finer) = self.known[fine].fine {
            fine = finer;
            if random.percent(50) {
                break;
            }
        }
        (random.choose(&self.stock(self.known[fine].stock)), coarse)
    }

    fn pick(random: &mut Random) -> (i32, i32) {
        let x = match random.below(20) {
            0 => random.range(-1_000_000, 1_000_000),
            1..=5 => random.range(-6, -1),
            _ => random.range(1, 4),
        };
        let y = match random.below(20) {
            0 => random.range(1, 1_000_000),
            _ => random.range(1, 6),
        };
        (if x == 0 { 1 } else { x as i32 }, y as i32)
    }

    /// An entry with operands and numbers that suit its kind.
    fn suitable_entry(&self, random: &mut Random, long: bool) -> [i32; 6] {
        let kind = match random.below(60) {
            0 => 0,
            1..=12 => 6,
            13..=16 => 8,
            _ => random.range(1, 12),
        } as i32;
        match kind {
            0 => [0; 6],
            1 => {
                let x = match random.below(20) {
                    0 => random.range(1, 1_000_000),
                    1..=3 => random.range(10, 100),
                    4..=9 if long => random.range(100, 2000),
                    _ => random.range(1, 8),
                };
                [1, self.any_full(random), 0, x as i32, 0, 0]
            }
            2 => {
                let x = match random.below(20) {
                    0 => random.range(-900_000_000, 900_000_000),
                    1..=4 => random.range(-1000, 1000),
                    _ => random.range(-9, 9),
                };
                [2, self.any(random), 0, x as i32, 0, 0]
            }
            3 => {
                let (fine, coarse) = self.aligned(random);
                let x = match random.below(20) {
                    0 => random.range(1, 1_000_000),
                    1..=3 => random.range(5, 60),
                    _ => random.range(1, 6),
                };
                let y = random.range(1, x);
                let z = match random.below(20) {
                    0 => random.range(-30, 1000),
                    1 => 0,
                    _ => random.range(-2, 3),
                };
                [3, fine, coarse, x as i32, y as i32, z as i32]
            }
            4 => {
                let (fine, coarse) = self.nested(random);
                [4, coarse, fine, 0, 0, 0]
            }
            5 => {
                let member = self.any(random);
                let stock = self.known[member as usize].stock;
                let a = if self.is_full(stock) {
                    stock as i32
                } else {
                    member
                };
                [5, a, member, 0, 0, 0]
            }
            6 => {
                let (fine, coarse) = self.nested(random);
                let (x, y) = Self::pick(random);
                [6, fine, coarse, x, y, 0]
            }
            7 => {
                let (fine, coarse) = self.nested(random);
                [7, coarse, fine, 0, 0, 0]
            }
            8 => {
                let (fine, coarse) = self.nested(random);
                let (x, y) = Self::pick(random);
                if random.percent(50) {
                    [8, fine, coarse, x, y, 0]
                } else {
                    [8, coarse, fine, x, y, 0]
                }
            }
            12 => {
                let x = match random.below(10) {
                    0 => random.range(-900_000_000, 900_000_000),
                    _ => random.range(-20, 20),
                };
                [12, self.any(random), 0, x as i32, 0, 0]
            }
            _ => {
                let (first, second) = self.kin(random);
                [kind, first, second, 0, 0, 0]
            }
        }
    }

    /// An entry that is likely to be refused by the number aimed at.
    fn entry_for(&self, aim: u32, random: &mut Random) -> [i32; 6] {
        let count = self.known.len() as i32;
        let mut entry = self.suitable_entry(random, false);
        match aim {
            4 => entry[0] = random.choose(&[-1, 13, 14, i32::MIN, i32::MAX, 100]),
            5 => {
                let name = random.choose(&[-1, count, count + 1, i32::MIN, i32::MAX]);
                let place = random.choose(&[1, 1, 2]);
                entry[place] = name;
            }
            6 => {
                let place = random.choose(&[1, 2, 3, 4, 5, 3, 4, 5]);
                entry[place] = match random.below(4) {
                    0 => 0,
                    1 => entry[place].wrapping_add(random.choose(&[-1, 1])),
                    2 => random.choose(&[
                        1_000_001,
                        -1_000_001,
                        LABEL_LIMIT + 1,
                        -LABEL_LIMIT - 1,
                        i32::MIN,
                        i32::MAX,
                    ]),
                    _ => random.any_i32(),
                };
            }
            7 => {
                if let Some(other) = self.any_not_full(random) {
                    entry = match random.below(5) {
                        0 => [1, other, 0, random.range(1, 9) as i32, 0, 0],
                        1 => [1, other, 0, 1_000_000, 0, 0],
                        2 => [3, other, self.any(random), 2, 1, 1],
                        3 => [3, self.any_full(random), other, 2, 1, 1],
                        _ => [5, other, self.any(random), 0, 0, 0],
                    };
                } else {
                    // Makes one that isn't full.
                    let (fine, coarse) = self.nested(random);
                    entry = [6, fine, coarse, 1, 1, 0];
                }
            }
            8 => match random.below(4) {
                0 => {
                    entry = [
                        1,
                        self.any_full(random),
                        0,
                        random.range(1, 1_000_000) as i32,
                        0,
                        0,
                    ]
                }
                1 => {
                    let (fine, coarse) = self.aligned(random);
                    let x = random.range(1, 1_000_000);
                    let y = random.range(1, x);
                    entry = [
                        3,
                        fine,
                        coarse,
                        x as i32,
                        y as i32,
                        random.range(0, 1_000_000) as i32,
                    ];
                }
                2 => {
                    let kind = random.range(4, 11) as i32;
                    let pick = if kind == 6 || kind == 8 { 1 } else { 0 };
                    entry = [kind, self.any(random), self.any(random), pick, pick, 0];
                }
                _ => {}
            },
            9 => {
                let (a, b) = (self.any(random), self.any(random));
                let (even_a, even_b) = self.even(random);
                let sets = random.range(9, 11) as i32;
                entry = match random.below(10) {
                    0 => [3, self.any_full(random), self.any_full(random), 2, 1, 1],
                    1 => [5, self.any_full(random), b, 0, 0, 0],
                    2 => {
                        let (fine, coarse) = self.aligned(random);
                        [3, coarse, fine, 2, 1, 1]
                    }
                    3 => [5, even_a, even_b, 0, 0, 0],
                    // Moves labels against those of the same stock.
                    4 => {
                        let distance = self.known[even_a as usize].row.distance as i32;
                        let x = random.choose(&[1, 2, distance, distance, 2 * distance]);
                        [2, even_a, 0, random.choose(&[x, -x]), 0, 0]
                    }
                    5..=7 => [sets, even_a, even_b, 0, 0, 0],
                    _ => [sets, a, b, 0, 0, 0],
                };
            }
            10 => {
                let (fine, coarse) = self.aligned(random);
                let x = random.choose(&[1, 2, 3, 4, 6, 12, 999_999, 1_000_000]);
                let y = random.range(1, x);
                let z = random.choose(&[-1, -2, -3, -5, -100, -1_000_000]);
                entry = [3, fine, coarse, x as i32, y as i32, z];
            }
            11 => {
                let a = self.any(random);
                let x = random.choose(&[LABEL_LIMIT, -LABEL_LIMIT, 999_999_990, -999_999_990]);
                let (first, second) = self.kin(random);
                entry = match random.below(16) {
                    0 => [2, a, 0, x, 0, 0],
                    1 => [12, a, 0, x, 0, 0],
                    // Calendars of one stock over a long span.
                    2 => [4, first, second, 0, 0, 0],
                    3 => [7, first, second, 0, 0, 0],
                    4 => [5, self.known[first as usize].stock as i32, second, 0, 0, 0],
                    // Slots made as short as can be lie further out.
                    5 | 6 => {
                        let (fine, coarse) = self.aligned(random);
                        let z = random.choose(&[-1, -2, 1000]);
                        [3, fine, coarse, 1, 1, z]
                    }
                    // Whatever suits, over labels that are far out already.
                    _ => entry,
                };
            }
            12 => {
                let (fine, coarse) = self.nested(random);
                let (first, second) = (0..6)
                    .map(|_| self.kin(random))
                    .find(|&(first, second)| {
                        // Neither should be the whole stock.
                        let whole = self.known[first as usize].stock as i32;
                        first != whole && second != whole && first != second
                    })
                    .unwrap_or((0, 0));
                entry = match random.below(7) {
                    0 => [
                        11,
                        first,
                        if random.percent(50) { first } else { second },
                        0,
                        0,
                        0,
                    ],
                    1 | 6 => [10, first, second, 0, 0, 0],
                    2 => [6, fine, coarse, random.range(20, 1_000_000) as i32, 1, 0],
                    3 => [7, fine, coarse, 0, 0, 0],
                    4 => [4, fine, coarse, 0, 0, 0],
                    _ => [8, coarse, fine, random.range(3, 100) as i32, 1, 0],
                };
            }
            _ => unreachable!("no refusal {aim} at an entry"),
        }
        entry
    }
}

/// The least common multiple of two numbers above 0.
pub fn lcm(a: usize, b: usize) -> usize {
    let (mut x, mut y) = (a, b);
    while y != 0 {
        (x, y) = (y, x % y);
    }
    a / x * b
}
