//! Random open maps, whole and damaged, and instants to ask them for.

use crate::random::Random;
use crate::second::open::{words_for, Open, WORD};
use crate::second::{CELL_LIMIT, LABEL_LIMIT};

const LIMIT: i64 = LABEL_LIMIT as i64;

/// A map with words of its own.
#[derive(Clone, Debug)]
pub struct OwnMap {
    pub words: Vec<u64>,
    pub period: i64,
}

impl OwnMap {
    /// The map of so many cells that shows the open ones.
    pub fn of(cells: usize, is_open: impl FnMut(&usize) -> bool) -> Self {
        let mut words = vec![0; words_for(cells)];
        for cell in (0..cells).filter(is_open) {
            words[cell / WORD] |= 1 << (cell % WORD);
        }
        OwnMap {
            words,
            period: cells as i64,
        }
    }

    pub fn open(&self) -> Open {
        Open::shown(&self.words, self.period).expect("a whole map")
    }
}

/// How the cells of a map are open.
pub const SHAPES: [&str; 9] = [
    "one bit",
    "the first bit",
    "the last bit",
    "all bits",
    "all bits but one",
    "many bits",
    "few bits",
    "five of seven",
    "one stretch",
];

/// A map of so many cells.
pub fn shaped_map(random: &mut Random, shape: &str, cells: usize) -> OwnMap {
    let sure = random.below(cells);
    let end = sure + random.below(cells) / 2;
    let percentage = if shape == "many bits" { 60 } else { 3 };
    OwnMap::of(cells, |&cell| match shape {
        "one bit" => cell == sure,
        "the first bit" => cell == 0,
        "the last bit" => cell == cells - 1,
        "all bits" => true,
        "all bits but one" => cell != sure || cells == 1,
        "five of seven" => cell % 7 < 5,
        "one stretch" => (sure..=end).contains(&cell),
        _ => cell == sure || random.percent(percentage),
    })
}

/// How long a map is. Those around a multiple of 64 are as likely as others,
/// long ones are rare.
pub fn any_period(random: &mut Random) -> usize {
    let longest = match random.below(400) {
        0 => CELL_LIMIT,
        1..4 => 20_000,
        _ => 400,
    };
    match random.below(4) {
        0 => random.range(1, 20) as usize,
        1 => random.range(1, longest as i64) as usize,
        _ => {
            let words = random.range(1, (longest / WORD) as i64);
            let cells = WORD as i64 * words + random.range(-2, 2);
            (cells as usize).min(CELL_LIMIT)
        }
    }
}

pub fn whole_map(random: &mut Random) -> (&'static str, OwnMap) {
    let shape = random.choose(&SHAPES);
    let cells = any_period(random);
    (shape, shaped_map(random, shape, cells))
}

/// The ways in which a map can be none.
pub const DAMAGES: [&str; 9] = [
    "a word too few",
    "a word too many",
    "no words",
    "period 0",
    "a period below 0",
    "a period just above the limit",
    "a period far above the limit",
    "an unused bit set",
    "no bit set",
];

/// Damages a whole map, so that it is none any more. Says whether it could be
/// done; a map of whole words has no unused bit.
pub fn damage(map: &mut OwnMap, way: &str, random: &mut Random) -> bool {
    let spare = map.words.len() * WORD - map.period as usize;
    match way {
        "a word too few" => match random.percent(50) {
            true => drop(map.words.pop()),
            false => map.period += (spare + 1) as i64,
        },
        "a word too many" => match random.percent(50) || map.words.len() == 1 {
            true => map.words.push(random.choose(&[0, 0, 1, u64::MAX])),
            false => map.period -= (WORD - spare) as i64,
        },
        "no words" => {
            map.words.clear();
            map.period = random.choose(&[0, 1, -1, map.period]);
        }
        "period 0" => map.period = 0,
        "a period below 0" => {
            map.period = random.choose(&[-1, -map.period, -64, i64::MIN, i64::MIN + 1]);
        }
        "a period just above the limit" => {
            map.period = CELL_LIMIT as i64 + random.range(1, 70);
            map.words.resize(words_for(map.period as usize), 0);
            map.words[0] |= 1;
        }
        "a period far above the limit" => {
            let same_below = map.period + (1 << 32);
            map.period = random.choose(&[i64::MAX, 1 << 32, same_below, i64::MAX - 63]);
        }
        "an unused bit set" => {
            if spare == 0 {
                return false;
            }
            let any = WORD - 1 - random.below(spare);
            let bit = random.choose(&[WORD - spare, WORD - 1, any]);
            *map.words.last_mut().expect("a word") |= 1 << bit;
        }
        _ => map.words.fill(0),
    }
    true
}

/// An instant in the range: near 0, near a turn or a word of the period, near a
/// limit, or anywhere.
pub fn instant_in_range(random: &mut Random, period: i64) -> i64 {
    let far = LIMIT / period;
    let t = match random.below(7) {
        0 => random.choose(&[LIMIT, -LIMIT]) + random.range(-6, 6),
        1 => random.range(-LIMIT, LIMIT),
        2 => period * random.range(-far, far) + random.range(-2, 2),
        3 => period * random.range(-2, 2) + random.range(-2, 2),
        4 => WORD as i64 * random.range(-4, 4) + random.range(-2, 2),
        5 => random.range(-2 * period, 2 * period),
        _ => random.range(-100, 100),
    };
    t.clamp(-LIMIT, LIMIT)
}

/// An instant outside the range.
pub fn instant_outside(random: &mut Random) -> i64 {
    let away = random.choose(&[-1, 1]);
    match random.below(4) {
        0 => away * (LIMIT + 1),
        1 => away * random.range(LIMIT + 1, 5 * LIMIT),
        2 => random.choose(&[i64::MIN, i64::MIN + 1, i64::MAX, i64::MAX - 1]),
        // The same as one in range, in 32 bits.
        _ => away * ((1 << 32) + random.range(0, 100)),
    }
}
