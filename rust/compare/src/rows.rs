//! Random rows, whole and damaged, and random questions to them.

use crate::random::Random;
use crate::second::questions::{Allowance, Row};
use crate::second::{CELL_LIMIT, EMPTY, LABEL_LIMIT};
use crate::tables::answered;

/// How many labels a turn has, two being one where they lie a multiple of the
/// distance apart. A distance below 1 is taken for 1.
pub fn labels_per_turn(cells: &[i32], distance: i64) -> i64 {
    let labels = cells.iter().filter(|&&cell| cell != EMPTY);
    let mut labels: Vec<i64> = labels
        .map(|&label| i64::from(label).rem_euclid(distance.max(1)))
        .collect();
    labels.sort();
    labels.dedup();
    labels.len() as i64
}

/// A row with cells of its own.
#[derive(Clone, Debug)]
pub struct OwnRow {
    pub cells: Vec<i32>,
    pub period: i64,
    pub distance: i64,
}

impl OwnRow {
    pub fn row(&self) -> Row<'_> {
        Row {
            cells: &self.cells,
            period: self.period,
            distance: self.distance,
        }
    }

    /// R, counted over the row's own period.
    pub fn slots(&self) -> i64 {
        labels_per_turn(&self.cells, self.distance)
    }

    pub fn label(&self, t: i64) -> Option<i64> {
        let cell = self.cells[t.rem_euclid(self.period) as usize];
        (cell != EMPTY).then(|| i64::from(cell) + self.distance * t.div_euclid(self.period))
    }

    /// All instants with the label of t, if it has one. A turn away from t the
    /// label is another.
    pub fn slot_of(&self, t: i64) -> Vec<i64> {
        let label = self.label(t);
        let near = t - self.period..=t + self.period;
        near.filter(|&other| label.is_some() && self.label(other) == label)
            .collect()
    }

    fn labelled(&self) -> Vec<usize> {
        let cells = self.cells.iter().enumerate();
        cells
            .filter(|(_, &cell)| cell != EMPTY)
            .map(|(place, _)| place)
            .collect()
    }
}

/// The ways in which a row can break rule 13.
pub const DAMAGES: [&str; 12] = [
    "too few cells",
    "too many cells",
    "no cells",
    "period is any number",
    "period above the limit",
    "distance below 1",
    "distance above the period",
    "label too high",
    "label too low",
    "no label",
    "labels fall inside",
    "labels fall at the turn",
];

/// A row that passes rule 13, of up to so many cells.
pub fn whole_row(random: &mut Random, longest: usize) -> OwnRow {
    let period = random.range(1, longest as i64);
    let distance = match random.below(4) {
        0 => period,
        1 => 1,
        _ => random.range(1, period),
    };
    let closed = random.choose(&[0, 0, 20, 50, 90]);
    let stays = random.choose(&[0, 30, 70, 95]);
    let highest_step = random.choose(&[1, 1, 2, 1 + distance / 4]);
    let limit = i64::from(LABEL_LIMIT);
    let first = match random.below(6) {
        0 => -limit,
        1 => limit - distance,
        2 => random.range(-limit, limit - distance),
        _ => random.range(-20, 20),
    };
    // Labels may rise over the row by the distance, and then the last slot is
    // the next turn's first.
    let mut label = first;
    let mut cells = vec![EMPTY; period as usize];
    let sure = random.below(cells.len());
    for (place, cell) in cells.iter_mut().enumerate() {
        if place != sure && random.percent(closed) {
            continue;
        }
        *cell = label as i32;
        if !random.percent(stays) {
            label = (label + random.range(1, highest_step)).min(first + distance);
        }
    }
    OwnRow {
        cells,
        period,
        distance,
    }
}

/// Damages a row that passes rule 13, so that it doesn't any more. Says whether
/// it could be done; a row of one cell can't fall inside.
pub fn damage(row: &mut OwnRow, way: usize, random: &mut Random) -> bool {
    let open = row.labelled();
    let place = random.choose(&open);
    match way {
        0 => row.cells.truncate(row.cells.len() - 1),
        1 => row.cells.push(random.choose(&[EMPTY, row.cells[place]])),
        2 => {
            row.cells.clear();
            row.period = random.choose(&[0, row.period]);
        }
        3 => {
            let before = row.period;
            let any = random.any_i64();
            row.period = random.choose(&[-before, 0, -1, i64::MIN, i64::MAX, any]);
            return row.period != before;
        }
        4 => {
            let length = CELL_LIMIT + random.range(1, 3) as usize;
            row.cells.resize(length, EMPTY);
            row.period = length as i64;
        }
        5 => {
            row.distance = random.choose(&[0, -1, -row.distance, i64::MIN]);
            if random.percent(30) {
                // Nothing falls then, even with distance 0.
                let label = row.cells[place];
                open.iter().for_each(|&place| row.cells[place] = label);
            }
        }
        6 => row.distance = random.choose(&[row.period + 1, 2 * row.period, i64::MAX]),
        // One label, or all of them so that none falls.
        7 if random.percent(50) => row.cells[place] = random.choose(&[LABEL_LIMIT + 1, i32::MAX]),
        7 => raise(
            row,
            &open,
            LABEL_LIMIT + 1 - row.cells[open[open.len() - 1]],
        ),
        8 if random.percent(50) => row.cells[place] = random.choose(&[-LABEL_LIMIT - 1, EMPTY + 1]),
        8 => raise(row, &open, -LABEL_LIMIT - 1 - row.cells[open[0]]),
        9 => row.cells.fill(EMPTY),
        10 => {
            // A cell above what follows, or below what went before.
            let (first, last) = (open[0], open[open.len() - 1]);
            if first == last {
                return false;
            }
            if row.cells[last] < LABEL_LIMIT && random.percent(50) {
                row.cells[first] = row.cells[last] + 1;
            } else if row.cells[first] > -LABEL_LIMIT {
                row.cells[last] = row.cells[first] - 1;
            } else {
                return false;
            }
        }
        _ => {
            let (first, last) = (open[0], open[open.len() - 1]);
            if first == last {
                return false;
            }
            let label = i64::from(row.cells[first]) + row.distance + random.choose(&[1, 1, 5]);
            if label > LABEL_LIMIT.into() {
                return false;
            }
            row.cells[last] = label as i32;
        }
    }
    true
}

fn raise(row: &mut OwnRow, open: &[usize], rise: i32) {
    open.iter().for_each(|&place| row.cells[place] += rise);
}

/// Whether a row can be written out so many times and keep the limit of labels.
pub fn can_unroll(row: &OwnRow, times: i64) -> bool {
    let highest = row.cells.iter().max().map_or(0, |&cell| i64::from(cell));
    highest + times * row.distance <= LABEL_LIMIT.into()
}

/// Writes a row out over several periods.
pub fn unrolled(row: &OwnRow, times: i64) -> OwnRow {
    let mut cells = Vec::new();
    for turn in 0..times {
        let risen = (turn * row.distance) as i32;
        let labels = row.cells.iter();
        cells.extend(labels.map(|&cell| if cell == EMPTY { EMPTY } else { cell + risen }));
    }
    OwnRow {
        cells,
        period: times * row.period,
        distance: times * row.distance,
    }
}

/// Several rows that pass rule 13, most of them related by a table.
pub fn whole_rows(random: &mut Random, long: bool) -> Vec<OwnRow> {
    let (cells, longest) = if long {
        random.choose(&[(1_048_576, 1_048_576), (CELL_LIMIT, CELL_LIMIT)])
    } else {
        (600, 60)
    };
    let mut rows = Vec::new();
    if random.percent(70) {
        let table = answered(random, cells, long);
        for entry in 0..table.entries() {
            rows.push(OwnRow {
                cells: table.cells(entry).to_vec(),
                period: table.cells(entry).len() as i64,
                distance: table.distance(entry),
            });
        }
    }
    for _ in 0..random.range(1, 3) {
        rows.push(whole_row(random, longest));
    }
    for _ in 0..2 {
        let row = &rows[random.below(rows.len())];
        let times = random.range(2, 4);
        if times * row.period <= longest as i64 && can_unroll(row, times) {
            rows.push(unrolled(row, times));
        }
    }
    rows
}

/// A question; the rows come beside it.
#[derive(Clone, Debug)]
pub enum Question {
    /// Up from an instant, to the first row.
    UpInstant(i64),
    /// Up from a slot of the first row to the second.
    UpGranule(i64),
    /// Down from a slot of the first row to the second, with a list so long.
    Down(i64, usize),
    /// The figures of the first row, with so many slots per period.
    Figures(i64),
    /// The least period of the first row.
    LeastPeriod,
    /// Whether a delivery may be so late on a slot of the first row.
    MayBeLate(i64, i64, Allowance),
}

/// What there is to say of the place of t among the instants of its slot.
pub const PLACES: [&str; 6] = [
    "the first",
    "a later one",
    "behind a closed instant",
    "of a slot in two turns",
    "in the second of two turns",
    "the last of several",
];

/// Those of [`PLACES`] that are so, for an instant of a slot of the row.
pub fn places(row: &OwnRow, slot: &[i64], t: i64) -> Vec<&'static str> {
    let (first, last) = (slot[0], slot[slot.len() - 1]);
    let turn = |t: i64| t.div_euclid(row.period);
    let earlier = slot.iter().filter(|&&other| other < t).count() as i64;
    let said = [
        t == first,
        t > first,
        t - first > earlier,
        turn(first) < turn(last),
        turn(first) < turn(t),
        t == last && first < last,
    ];
    let so = PLACES.into_iter().zip(said);
    so.filter(|&(_, said)| said).map(|(name, _)| name).collect()
}

/// An instant near 0, near a limit or anywhere.
pub fn instant(random: &mut Random) -> i64 {
    let limit = i64::from(LABEL_LIMIT);
    match random.below(8) {
        0 => random.choose(&[limit, -limit]) + random.range(-6, 6),
        1 => random.range(-limit, limit),
        _ => random.range(-100, 100),
    }
}

/// What may be handed in as the slots per period of a row that has so many, by
/// name: the first is right, all others are wrong.
pub fn slots_given(slots: i64) -> [(&'static str, i64); 8] {
    [
        ("right", slots),
        ("one more", slots + 1),
        ("one less", slots - 1),
        ("of two turns", 2 * slots),
        ("negative", -slots),
        ("zero", 0),
        ("the least number", i64::MIN),
        ("the greatest number", i64::MAX),
    ]
}

/// A random question that suits the first row.
pub fn question(random: &mut Random, first: &OwnRow) -> Question {
    match random.below(13) {
        0 | 1 => Question::UpInstant(match random.below(8) {
            0 => random.any_i64(),
            1 => random.choose(&[1_000_000_000, -1_000_000_000, 1_000_000_001, -1_000_000_001]),
            2 => random.range(-1_000_000_000, 1_000_000_000),
            _ => random.range(-100, 100),
        }),
        2..=4 => Question::UpGranule(label(random, first)),
        5..=8 => {
            let most = match random.below(10) {
                0 => 0,
                1..=3 => random.below(10),
                _ if first.cells.len() > 1000 && random.percent(50) => CELL_LIMIT,
                _ => 70,
            };
            Question::Down(label(random, first), most)
        }
        9 => Question::Figures(match random.below(8) {
            0 => random.any_i64(),
            1 => random.choose(&[first.distance, first.period]),
            _ => first.slots(),
        }),
        10 => Question::LeastPeriod,
        _ => {
            let late = match random.below(12) {
                0 => random.any_i64(),
                1 => random.choose(&[-1, 1_048_576, 1_048_577]),
                2 => random.range(0, 1_048_576),
                _ => random.range(0, 12),
            };
            Question::MayBeLate(label(random, first), late, allowance(random, late))
        }
    }
}

/// Mostly a label of the row, in any turn; the row may be damaged.
fn label(random: &mut Random, row: &OwnRow) -> i64 {
    let limit = i64::from(LABEL_LIMIT);
    let open = row.labelled();
    if open.is_empty() || random.percent(10) {
        return random.range(-30, 30);
    }
    let label = i64::from(row.cells[random.choose(&open)]);
    let turns = match random.below(10) {
        0 => random.range(-limit, limit) / row.distance.clamp(1, limit),
        1..=4 => 0,
        _ => random.range(-5, 5),
    };
    match random.below(40) {
        0 => random.any_i64(),
        1 => random.choose(&[limit, -limit, limit + 1, -limit - 1]),
        2..=4 => label + random.range(-3, 3),
        _ => label.wrapping_add(turns.wrapping_mul(row.distance)),
    }
}

/// Allowances near the lateness, and such that aren't allowed.
pub fn allowance(random: &mut Random, late: i64) -> Allowance {
    let amount = match random.below(16) {
        0 => random.choose(&[
            f64::NAN,
            f64::INFINITY,
            f64::NEG_INFINITY,
            f64::MAX,
            f64::MIN,
        ]),
        1 => random.choose(&[
            -0.0,
            0.0,
            0.0,
            1.0,
            1.0 + 1.0 / 256.0,
            -1.0 / 256.0,
            f64::MIN_POSITIVE,
        ]),
        2 => f64::from_bits(random.bits()),
        3 => random.range(0, 512) as f64 / 512.0,
        4 => late as f64,
        5 => late as f64 + random.choose(&[-1.0, -0.5, 0.5, 1.0, f64::EPSILON, -f64::EPSILON]),
        6 => random.range(-300, 600) as f64 / 256.0,
        _ => random.range(0, 256) as f64 / 256.0,
    };
    if random.percent(35) {
        Allowance::Fixed(amount)
    } else {
        Allowance::Share(amount)
    }
}
