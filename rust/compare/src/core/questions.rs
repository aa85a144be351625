//! Questions to rows.

use jogipahn::{raw, Figures, Placed, Reader};

use super::{code, code_if_any, code_of_count, number, DIRT};
use crate::second::questions::{Allowance, Row};

/// The crate's reader of a row.
pub fn reader(row: Row<'_>) -> Reader<'_> {
    Reader::new(row.cells, row.period, row.distance)
}

pub fn up_instant(asked: Row, t: i64) -> Result<Option<(i64, u64)>, u32> {
    let answer = reader(asked).label(t);
    let mut placed = Placed {
        label: DIRT,
        place: DIRT,
    };
    let told = raw::up_instant(reader(asked), t, &mut placed);
    let part = |of: fn(Placed) -> i64| code_if_any(answer.map(|placed| placed.map(of)));
    assert_eq!((told, placed.label), part(|placed| placed.label));
    assert_eq!((told, placed.place), part(|placed| placed.place));
    let pair = |placed: Placed| (placed.label, placed.place as u64);
    answer.map(|placed| placed.map(pair)).map_err(number)
}

pub fn up_granule(g: Row, h: Row, z: i64) -> Result<Option<i64>, u32> {
    let answer = reader(g).up(reader(h), z);
    let mut label = DIRT;
    let told = raw::up_granule(reader(g), reader(h), z, &mut label);
    assert_eq!((told, label), code_if_any(answer));
    answer.map_err(number)
}

pub fn down(h: Row, g: Row, z: i64, parts: &mut [i64]) -> Result<usize, u32> {
    let answer = reader(h).down(reader(g), z, parts);
    let mut left = vec![DIRT; parts.len()];
    let told = raw::down(reader(h), reader(g), z, &mut left);
    assert_eq!(told, code_of_count(answer));
    assert!(left == parts, "other parts beside the answer {told}");
    answer.map_err(number)
}

pub fn figures(asked: Row, slots: i64) -> Result<(f64, f64, f64), u32> {
    let parts = |figures: Figures| (figures.openness, figures.mean_length, figures.mean_spacing);
    let bits = |(a, b, c): (f64, f64, f64)| [a, b, c].map(f64::to_bits);
    let answer = reader(asked).figures(slots).map(parts);
    let mut left = Figures {
        openness: f64::NAN,
        mean_length: f64::NAN,
        mean_spacing: f64::NAN,
    };
    let told = raw::figures(reader(asked), slots, &mut left);
    assert_eq!(told, answer.map_or_else(code, |_| 0));
    assert_eq!(bits(parts(left)), answer.map_or([0; 3], bits));
    answer.map_err(number)
}

pub fn least_period(asked: Row) -> Result<(i64, i64), u32> {
    let answer = reader(asked).least_period();
    let answer = answer.map(|least| (least.period, least.tried));
    let mut tried = DIRT;
    let told = raw::least_period(reader(asked), &mut tried);
    assert_eq!(
        (told, tried),
        answer.unwrap_or_else(|error| (code(error), 0))
    );
    answer.map_err(number)
}

pub fn may_be_late(asked: Row, z: i64, d: i64, rule: Allowance) -> Result<bool, u32> {
    let (allowance, rule, amount) = match rule {
        Allowance::Fixed(instants) => (jogipahn::Allowance::Fixed(instants), 0, instants),
        Allowance::Share(share) => (jogipahn::Allowance::Share(share), 1, share),
    };
    let answer = reader(asked).may_be_late(z, d, allowance).map_err(number);
    assert_eq!(may_be_late_by(asked, z, d, rule, amount), answer);
    answer
}

/// As [`may_be_late`], the rule being any number, which only C can say.
pub fn may_be_late_by(asked: Row, z: i64, d: i64, rule: i64, amount: f64) -> Result<bool, u32> {
    match raw::may_be_late(reader(asked), z, d, rule, amount) {
        1 => Ok(true),
        0 => Ok(false),
        told @ -18..=-13 => Err(-told as u32),
        told => panic!("the core answered {told}, which means nothing"),
    }
}

/// Many instants at once: what C answers and leaves in lists with so much room each, all of them dirty before.
pub fn up_instants(asked: Row, ts: &[i64], room: [usize; 3]) -> (i64, [Vec<i64>; 3]) {
    let [mut codes, mut labels, mut places] = room.map(|room| vec![DIRT; room]);
    let told = raw::up_instants(reader(asked), ts, &mut codes, &mut labels, &mut places);
    (told, [codes, labels, places])
}

/// Many slots at once, likewise.
pub fn up_granules(g: Row, h: Row, zs: &[i64], room: [usize; 2]) -> (i64, [Vec<i64>; 2]) {
    let [mut codes, mut labels] = room.map(|room| vec![DIRT; room]);
    let told = raw::up_granules(reader(g), reader(h), zs, &mut codes, &mut labels);
    (told, [codes, labels])
}

/// Lateness on many slots, likewise.
pub fn may_be_late_each(
    asked: Row,
    zs: &[i64],
    d: i64,
    rule: (i64, f64),
    room: usize,
) -> (i64, Vec<i64>) {
    let mut codes = vec![DIRT; room];
    let told = raw::may_be_late_each(reader(asked), zs, d, rule.0, rule.1, &mut codes);
    (told, codes)
}
