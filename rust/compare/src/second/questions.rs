//! Questions to a row.
//!
//! Every question first tests its rows by rule 13, which takes a pass over
//! each. Beyond that it looks at the slots asked about and the gaps next to
//! them, not at the whole row.

use super::least::repeats;
use super::numbers::gcd;
use super::{CELL_LIMIT, EMPTY, LABEL_LIMIT};

/// A row handed in with its period and distance, which may be any numbers.
#[derive(Clone, Copy, Debug)]
pub struct Row<'a> {
    pub cells: &'a [i32],
    pub period: i64,
    pub distance: i64,
}

/// How late a delivery may be.
#[derive(Clone, Copy, Debug, PartialEq)]
pub enum Allowance {
    /// A number of instants.
    Fixed(f64),
    /// A share of the slot.
    Share(f64),
}

/// The label of an instant and its place among the slot's own instants, from
/// 1; or none.
pub fn up_instant(row: Row, t: i64) -> Result<Option<(i64, u64)>, u32> {
    let calendar = Calendar::tested(row)?;
    within_limit(t)?;
    Ok(calendar
        .label(t)
        .map(|label| (label, calendar.place(t, label))))
}

/// The label of h's slot that holds all of g's slot z, or none.
pub fn up_granule(g: Row, h: Row, z: i64) -> Result<Option<i64>, u32> {
    let inner = Calendar::tested(g)?;
    let outer = Calendar::tested(h)?;
    within_limit(z)?;
    let (first, last) = inner.slot(z).ok_or(15u32)?;
    let holder = outer.label(first);
    let held = inner
        .labels_from(first)
        .zip(outer.labels_from(first))
        .take((last - first + 1) as usize)
        .all(|(inner, outer)| inner.is_none() || outer == holder);
    Ok(if held { holder } else { None })
}

/// Lists the labels of g's slots inside h's slot z, and says how many they are.
/// The rest of the list is zero, and all of it after a refusal.
pub fn down(h: Row, g: Row, z: i64, parts: &mut [i64]) -> Result<usize, u32> {
    parts.fill(0);
    let answer = list_parts(h, g, z, parts);
    if answer.is_err() {
        parts.fill(0);
    }
    answer
}

fn list_parts(h: Row, g: Row, z: i64, parts: &mut [i64]) -> Result<usize, u32> {
    let outer = Calendar::tested(h)?;
    let inner = Calendar::tested(g)?;
    within_limit(z)?;
    let (first, last) = outer.slot(z).ok_or(15u32)?;
    let length = (last - first + 1) as usize;

    let mut count = 0;
    // The last label of g met inside the slot, and the last met outside it.
    // Labels never fall, so that a slot of g that has instants on both sides
    // shows where the walk changes sides.
    let mut part = None;
    let mut outsider = Some(inner.label_before(first));
    for (outer, inner) in outer
        .labels_from(first)
        .zip(inner.labels_from(first))
        .take(length)
    {
        if outer.is_none() {
            if inner.is_some() {
                if inner == part {
                    return Err(16);
                }
                outsider = inner;
            }
        } else {
            let label = inner.ok_or(16u32)?;
            if inner == outsider {
                return Err(16);
            }
            if inner != part {
                part = inner;
                if let Some(place) = parts.get_mut(count) {
                    *place = label;
                }
                count += 1;
            }
        }
    }
    if part == Some(inner.label_after(last)) {
        return Err(16);
    }
    if count > parts.len() {
        return Err(17);
    }
    Ok(count)
}

/// The open part of the instants, the mean slot length, the mean spacing. The
/// slots per period are handed in, and have to be those of the row.
pub fn figures(row: Row, slots: i64) -> Result<(f64, f64, f64), u32> {
    let calendar = Calendar::tested(row)?;
    if slots != calendar.slots_per_period() {
        return Err(13);
    }
    let open = calendar.cells.iter().filter(|&&cell| cell != EMPTY).count() as i64;
    Ok((
        quotient(open, calendar.period),
        quotient(open, slots),
        quotient(calendar.period, slots),
    ))
}

/// The least period, and how many divisors of gcd(P, N, R) are tried from the
/// greatest down to the first that gives a period.
pub fn least_period(row: Row) -> Result<(i64, i64), u32> {
    let calendar = Calendar::tested(row)?;
    let (period, distance) = (calendar.period, calendar.distance);
    let common = gcd(gcd(period, distance), calendar.slots_per_period());
    let divisors = (1..=common).rev().filter(|times| common % times == 0);
    let mut tried = 0;
    for times in divisors {
        tried += 1;
        if repeats(calendar.cells, period / times, distance / times) {
            return Ok((period / times, tried));
        }
    }
    unreachable!("a row repeats after its own period")
}

/// Whether a delivery may be d instants late on slot z.
pub fn may_be_late(row: Row, z: i64, d: i64, rule: Allowance) -> Result<bool, u32> {
    let calendar = Calendar::tested(row)?;
    within_limit(z)?;
    if !(0..=1_048_576).contains(&d) {
        return Err(14);
    }
    let allowed = match rule {
        Allowance::Fixed(instants) => instants.is_finite() && instants >= 0.0,
        Allowance::Share(share) => share > 0.0 && share <= 1.0 && (share * 256.0).fract() == 0.0,
    };
    if !allowed {
        return Err(18);
    }
    let (first, last) = calendar.slot(z).ok_or(15u32)?;
    // Closed days inside the slot are no part of its length.
    let span = calendar
        .labels_from(first)
        .take((last - first + 1) as usize);
    let length = span.flatten().count() as i64;
    Ok(match rule {
        Allowance::Fixed(instants) => d as f64 <= instants,
        Allowance::Share(share) => 256 * d <= (share * 256.0) as i64 * length,
    })
}

pub(super) fn within_limit(number: i64) -> Result<(), u32> {
    let limit = i64::from(LABEL_LIMIT);
    if (-limit..=limit).contains(&number) {
        Ok(())
    } else {
        Err(14)
    }
}

fn quotient(numerator: i64, denominator: i64) -> f64 {
    numerator as f64 / denominator as f64
}

/// Tests a row by rule 13.
pub(super) fn test(row: Row) -> Result<(), u32> {
    Calendar::tested(row).map(|_| ())
}

/// A row that has passed rule 13.
#[derive(Clone, Copy)]
struct Calendar<'a> {
    cells: &'a [i32],
    period: i64,
    distance: i64,
    /// The labels in the first and the last labelled cell.
    first: i64,
    last: i64,
}

impl<'a> Calendar<'a> {
    fn tested(row: Row<'a>) -> Result<Self, u32> {
        let Row {
            cells,
            period,
            distance,
        } = row;
        let numbers_allowed = i64::try_from(cells.len()) == Ok(period)
            && cells.len() <= CELL_LIMIT
            && (1..=period).contains(&distance);
        if !numbers_allowed {
            return Err(13);
        }
        let mut labels = cells.iter().copied().filter(|&cell| cell != EMPTY);
        let first = labels.next().ok_or(13u32)?;
        let mut last = first;
        for label in labels {
            if label < last {
                return Err(13);
            }
            last = label;
        }
        // Labels that never fall lie between the first and the last.
        let (first, last) = (i64::from(first), i64::from(last));
        let limit = i64::from(LABEL_LIMIT);
        if first < -limit || last > limit || last > first + distance {
            return Err(13);
        }
        Ok(Calendar {
            cells,
            period,
            distance,
            first,
            last,
        })
    }

    /// R: a label counts where it is another than the one before it.
    fn slots_per_period(&self) -> i64 {
        let mut slots = 0;
        let mut before = self.label_before(0);
        for &cell in self.cells.iter().filter(|&&cell| cell != EMPTY) {
            slots += i64::from(i64::from(cell) != before);
            before = i64::from(cell);
        }
        slots
    }

    fn label(&self, t: i64) -> Option<i64> {
        let cell = self.cells[t.rem_euclid(self.period) as usize];
        (cell != EMPTY).then(|| i64::from(cell) + self.distance * t.div_euclid(self.period))
    }

    /// How many instants of t's slot, whose label is given, are not after t.
    fn place(&self, t: i64, label: i64) -> u64 {
        let (first, _) = self.slot(label).expect("t has the label");
        let span = self.labels_from(first).take((t - first + 1) as usize);
        span.filter(|&other| other == Some(label)).count() as u64
    }

    /// The labels of t, t + 1 and so on, without end.
    fn labels_from(&self, t: i64) -> impl Iterator<Item = Option<i64>> + 'a {
        let Calendar {
            cells, distance, ..
        } = *self;
        let mut place = t.rem_euclid(self.period) as usize;
        let mut risen = distance * t.div_euclid(self.period);
        std::iter::from_fn(move || {
            let cell = cells[place];
            let label = (cell != EMPTY).then(|| i64::from(cell) + risen);
            place += 1;
            if place == cells.len() {
                place = 0;
                risen += distance;
            }
            Some(label)
        })
    }

    /// The label of the last labelled instant before t.
    fn label_before(&self, t: i64) -> i64 {
        let place = t.rem_euclid(self.period) as usize;
        let risen = self.distance * t.div_euclid(self.period);
        match self.cells[..place]
            .iter()
            .rev()
            .find(|&&cell| cell != EMPTY)
        {
            Some(&cell) => i64::from(cell) + risen,
            None => self.last + risen - self.distance,
        }
    }

    /// The label of the next labelled instant after t.
    fn label_after(&self, t: i64) -> i64 {
        let place = t.rem_euclid(self.period) as usize;
        let risen = self.distance * t.div_euclid(self.period);
        match self.cells[place + 1..].iter().find(|&&cell| cell != EMPTY) {
            Some(&cell) => i64::from(cell) + risen,
            None => self.first + risen + self.distance,
        }
    }

    /// The first and the last instant of the slot with label z, if there is one.
    fn slot(&self, z: i64) -> Option<(i64, i64)> {
        // The turn in which the label lies at or above the first cell's, and
        // below that of the next turn.
        let turn = (z - self.first).div_euclid(self.distance);
        let own = z - self.distance * turn;
        let (begin, end) = self.cells_labelled(own)?;
        // The first label of a turn may stand at the end of the turn before.
        let first = if own == self.first && self.last == self.first + self.distance {
            let (begin, _) = self.cells_labelled(self.last)?;
            (turn - 1) * self.period + begin as i64
        } else {
            turn * self.period + begin as i64
        };
        Some((first, turn * self.period + end as i64))
    }

    /// The first and the last cell with that label, if there is one.
    fn cells_labelled(&self, label: i64) -> Option<(usize, usize)> {
        let begin = self.first_cell(|cell| cell >= label)?;
        if i64::from(self.cells[begin]) != label {
            return None;
        }
        let end = self
            .first_cell(|cell| cell > label)
            .unwrap_or(self.cells.len());
        let last = self.cells[..end].iter().rposition(|&cell| cell != EMPTY)?;
        Some((begin, last))
    }

    /// The first labelled cell whose label is high enough, if there is one.
    fn first_cell(&self, high_enough: impl Fn(i64) -> bool) -> Option<usize> {
        // No labelled cell below `low` is high enough, all from `high` on are,
        // and `found` is the first of the latter.
        let mut low = 0;
        let mut high = self.cells.len();
        let mut found = None;
        while low < high {
            let middle = low + (high - low) / 2;
            match self.cells[middle..high]
                .iter()
                .position(|&cell| cell != EMPTY)
            {
                None => high = middle,
                Some(gap) => {
                    let place = middle + gap;
                    if high_enough(i64::from(self.cells[place])) {
                        found = Some(place);
                        high = middle;
                    } else {
                        low = place + 1;
                    }
                }
            }
        }
        found
    }
}

#[cfg(test)]
mod tests {
    use super::*;

    const NONE: i32 = EMPTY;

    /// W of document 01, the weeks.
    const W: Row = Row {
        cells: &[0, 1, 1, 1, 1, 1, 1],
        period: 7,
        distance: 1,
    };
    /// B, the working days.
    const B: Row = Row {
        cells: &[NONE, 1, 2, 3, 4, 5, NONE],
        period: 7,
        distance: 7,
    };
    /// C, the working days numbered through.
    const C: Row = Row {
        cells: &[NONE, 1, 2, 3, 4, 5, NONE],
        period: 7,
        distance: 5,
    };
    /// The working weeks: group 5 of C.
    const WORKING_WEEK: Row = Row {
        cells: &[NONE, 1, 1, 1, 1, 1, NONE],
        period: 7,
        distance: 1,
    };

    fn row(cells: &[i32], period: i64, distance: i64) -> Row<'_> {
        Row {
            cells,
            period,
            distance,
        }
    }

    #[test]
    fn up_from_an_instant() {
        assert_eq!(up_instant(B, 8), Ok(Some((8, 1))));
        assert_eq!(up_instant(C, 8), Ok(Some((6, 1))));
        assert_eq!(up_instant(C, 7), Ok(None));
        assert_eq!(up_instant(W, -6), Ok(Some((0, 1))));
        assert_eq!(up_instant(W, -7), Ok(Some((-1, 7))));
        assert_eq!(up_instant(W, 1_000_000_001), Err(14));
        assert_eq!(up_instant(W, -1_000_000_001), Err(14));
        let far = row(&[1_000_000_000], 1, 1);
        let answer = up_instant(far, 1_000_000_000);
        assert_eq!(answer, Ok(Some((2_000_000_000, 1))));
    }

    #[test]
    fn the_place_of_an_instant() {
        // The fifth working day of case 5.
        assert_eq!(up_instant(WORKING_WEEK, 5), Ok(Some((1, 5))));
        assert_eq!(up_instant(WORKING_WEEK, 8), Ok(Some((2, 1))));
        // A closed Wednesday has no place, and takes none.
        let closed = row(&[NONE, 1, 1, NONE, 1, 1, NONE], 7, 1);
        assert_eq!(up_instant(closed, 2), Ok(Some((1, 2))));
        assert_eq!(up_instant(closed, 3), Ok(None));
        assert_eq!(up_instant(closed, 4), Ok(Some((1, 3))));
        assert_eq!(up_instant(closed, -2), Ok(Some((0, 4))));
        // A slot that begins in the turn before.
        let turned = row(&[1, NONE, 1, 2, NONE, 3], 6, 2);
        assert_eq!(up_instant(turned, 5), Ok(Some((3, 1))));
        assert_eq!(up_instant(turned, 6), Ok(Some((3, 2))));
        assert_eq!(up_instant(turned, 8), Ok(Some((3, 3))));
        assert_eq!(up_instant(turned, 2), Ok(Some((1, 3))));
    }

    #[test]
    fn up_from_a_slot() {
        assert_eq!(up_granule(B, W, 8), Ok(Some(2)));
        assert_eq!(up_granule(C, W, 6), Ok(Some(2)));
        assert_eq!(up_granule(C, W, 0), Ok(Some(0)));
        assert_eq!(up_granule(W, B, 1), Ok(None));
        assert_eq!(up_granule(W, W, -3), Ok(Some(-3)));
        assert_eq!(up_granule(WORKING_WEEK, W, 4), Ok(Some(4)));
        assert_eq!(up_granule(W, WORKING_WEEK, 4), Ok(None));
        assert_eq!(up_granule(B, W, 6), Err(15));
        assert_eq!(up_granule(B, W, 1_000_000_001), Err(14));
        // A slot with a gap that the holder labels otherwise.
        let pairs = row(&[1, NONE, 1], 3, 1);
        let apart = row(&[1, 1, 2], 3, 3);
        assert_eq!(up_granule(pairs, row(&[1, NONE, 1], 3, 2), 1), Ok(Some(1)));
        assert_eq!(up_granule(pairs, apart, 1), Ok(None));
    }

    #[test]
    fn answers_pass_the_limit() {
        // Slot 1,000,000,000 begins at an instant beyond 10^15.
        let cells = vec![0; 1_048_576];
        let long = row(&cells, 1_048_576, 1);
        let bottom = row(&[0], 1, 1);
        let mut parts = vec![7; 1_048_577];
        assert_eq!(
            up_granule(long, long, 1_000_000_000),
            Ok(Some(1_000_000_000))
        );
        assert_eq!(down(long, bottom, 1_000_000_000, &mut parts), Ok(1_048_576));
        assert_eq!(parts[0], 1_048_576_000_000_000);
        assert_eq!(parts[1_048_576], 0);
        assert_eq!(up_granule(long, bottom, 1_000_000_000), Ok(None));
    }

    #[test]
    fn down_lists_the_parts() {
        let mut parts = [9; 8];
        assert_eq!(down(WORKING_WEEK, C, 2, &mut parts), Ok(5));
        assert_eq!(parts, [6, 7, 8, 9, 10, 0, 0, 0]);
        assert_eq!(down(W, W, -5, &mut parts), Ok(1));
        assert_eq!(parts, [-5, 0, 0, 0, 0, 0, 0, 0]);
        assert_eq!(down(W, row(&[0], 1, 1), 0, &mut parts), Ok(7));
        assert_eq!(parts, [-6, -5, -4, -3, -2, -1, 0, 0]);
    }

    #[test]
    fn down_refuses() {
        let mut parts = [9; 4];
        // Sunday and Saturday have no part.
        assert_eq!(down(W, B, 1, &mut parts), Err(16));
        assert_eq!(parts, [0; 4]);
        parts = [9; 4];
        assert_eq!(down(WORKING_WEEK, B, 1, &mut parts), Err(17));
        assert_eq!(parts, [0; 4]);
        // Nothing is inside.
        assert_eq!(down(B, W, 1, &mut parts), Err(16));
        // 16 comes before 17, 15 before both, 14 before it, 13 first.
        assert_eq!(down(W, B, 1, &mut []), Err(16));
        assert_eq!(down(B, W, 6, &mut []), Err(15));
        assert_eq!(down(B, W, -1_000_000_001, &mut []), Err(14));
        assert_eq!(down(B, row(&[0], 1, 2), -1_000_000_001, &mut []), Err(13));
        assert_eq!(down(row(&[0], 1, 2), B, -1_000_000_001, &mut []), Err(13));
        // The part reaches out of the slot: before it, behind it, into its gap.
        assert_eq!(
            down(
                row(&[NONE, 1, 1], 3, 1),
                row(&[1, 1, 2], 3, 2),
                1,
                &mut parts
            ),
            Err(16)
        );
        assert_eq!(
            down(
                row(&[1, 1, NONE], 3, 1),
                row(&[1, 2, 2], 3, 2),
                1,
                &mut parts
            ),
            Err(16)
        );
        assert_eq!(
            down(
                row(&[1, NONE, 1], 3, 1),
                row(&[1, 1, 1], 3, 1),
                1,
                &mut parts
            ),
            Err(16)
        );
        assert_eq!(
            down(
                row(&[1, NONE, 1], 3, 1),
                row(&[1, 2, 3], 3, 3),
                1,
                &mut parts
            ),
            Ok(2)
        );
        assert_eq!(parts, [1, 3, 0, 0]);
    }

    #[test]
    fn figures_are_single_divisions() {
        assert_eq!(figures(W, 1), Ok((1.0, 7.0, 7.0)));
        assert_eq!(figures(B, 5), Ok((5.0 / 7.0, 1.0, 7.0 / 5.0)));
        assert_eq!(figures(WORKING_WEEK, 1), Ok((5.0 / 7.0, 5.0, 7.0)));
        assert_eq!(figures(row(&[NONE], 1, 1), 0), Err(13));
    }

    #[test]
    fn figures_take_the_slots_of_the_row_itself() {
        // Not the distance, and nothing that only looks like 5.
        for slots in [4, 6, 7, 0, -5, (5 << 32) + 5, i64::MIN, i64::MAX] {
            assert_eq!(figures(B, slots), Err(13), "{slots}");
        }
        // Two weeks in one row have two slots, whatever the least form has.
        let weeks = [0, 1, 1, 1, 1, 1, 1, 1, 2, 2, 2, 2, 2, 2];
        assert_eq!(figures(row(&weeks, 14, 2), 2), Ok((1.0, 7.0, 7.0)));
        assert_eq!(figures(row(&weeks, 14, 2), 1), Err(13));
    }

    #[test]
    fn lateness() {
        use Allowance::{Fixed, Share};
        assert_eq!(may_be_late(W, 0, 7, Share(1.0)), Ok(true));
        assert_eq!(may_be_late(W, 0, 8, Share(1.0)), Ok(false));
        assert_eq!(may_be_late(W, 3, 3, Share(0.5)), Ok(true));
        assert_eq!(may_be_late(W, 3, 4, Share(0.5)), Ok(false));
        // A share of 0 is refused, a fixed allowance of 0 is not.
        assert_eq!(may_be_late(B, 1, 0, Share(-0.0)), Err(18));
        assert_eq!(may_be_late(B, 1, 0, Share(0.0)), Err(18));
        assert_eq!(may_be_late(B, 6, 0, Share(0.0)), Err(18));
        assert_eq!(may_be_late(B, 1, 0, Fixed(0.0)), Ok(true));
        assert_eq!(may_be_late(B, 1, 1, Fixed(0.0)), Ok(false));
        assert_eq!(may_be_late(B, 1, 2, Fixed(2.0)), Ok(true));
        assert_eq!(may_be_late(B, 1, 2, Fixed(1.999)), Ok(false));
        assert_eq!(may_be_late(B, 1, 0, Fixed(-0.0)), Ok(true));
        assert_eq!(may_be_late(B, 1, 1_048_576, Fixed(f64::MAX)), Ok(true));
        // A closed day inside is no part of the slot.
        let gap = row(&[1, 1, NONE, 1, 1], 5, 1);
        assert_eq!(may_be_late(gap, 1, 4, Share(1.0)), Ok(true));
        assert_eq!(may_be_late(gap, 1, 5, Share(1.0)), Ok(false));
        for bad in [-1.0, f64::NAN, f64::INFINITY, f64::NEG_INFINITY] {
            assert_eq!(may_be_late(B, 6, 0, Fixed(bad)), Err(18));
            assert_eq!(may_be_late(B, 6, 0, Share(bad)), Err(18));
        }
        for bad in [1.0 / 512.0, 257.0 / 256.0, 1.5, -1.0 / 256.0, 1e-310] {
            assert_eq!(may_be_late(B, 6, 0, Share(bad)), Err(18));
        }
        assert_eq!(may_be_late(B, 6, 0, Share(1.0 / 256.0)), Err(15));
        assert_eq!(may_be_late(B, 1, 1_048_577, Fixed(-1.0)), Err(14));
        assert_eq!(may_be_late(B, 1, -1, Fixed(-1.0)), Err(14));
        assert_eq!(may_be_late(B, 1_000_000_001, 0, Fixed(-1.0)), Err(14));
    }

    #[test]
    fn rows_that_break_rule_13() {
        let long = vec![0; CELL_LIMIT + 1];
        let refused = [
            row(&[], 0, 0),
            row(&[], 0, 1),
            row(&[0], 2, 1),
            row(&[0, 0], 1, 1),
            row(&[0], 1, 0),
            row(&[0], 1, -1),
            row(&[0], -1, -1),
            row(&[0], 1, 2),
            row(&[0], i64::MAX, i64::MIN),
            row(&[NONE, NONE], 2, 1),
            row(&[1, 0], 2, 2),
            row(&[0, 2], 2, 1),
            row(&[NONE, 0, NONE, 2], 4, 1),
            row(&[1_000_000_001], 1, 1),
            row(&[-1_000_000_001], 1, 1),
            row(&[NONE + 1], 1, 1),
            row(&[i32::MAX], 1, 1),
            row(&long, long.len() as i64, 1),
        ];
        for row in refused {
            assert_eq!(
                up_instant(row, 2_000_000_000),
                Err(13),
                "{} cells",
                row.cells.len()
            );
            assert!((-1..=2).all(|slots| figures(row, slots) == Err(13)));
            assert_eq!(may_be_late(row, 0, -1, Allowance::Fixed(-1.0)), Err(13));
        }
        assert_eq!(
            up_instant(row(&long[1..], CELL_LIMIT as i64, 1), 0),
            Ok(Some((0, 1)))
        );
        assert_eq!(up_instant(row(&[0, 1], 2, 1), 2), Ok(Some((1, 2))));
    }

    #[test]
    fn slots_are_found_past_gaps() {
        let cells = [NONE, NONE, 3, NONE, NONE, NONE, 3, 5, NONE, 9, NONE, NONE];
        let calendar = Calendar::tested(row(&cells, 12, 6)).unwrap();
        assert_eq!(calendar.slot(3), Some((-3, 6)));
        assert_eq!(calendar.slot(9), Some((9, 18)));
        assert_eq!(calendar.slot(5), Some((7, 7)));
        assert_eq!(calendar.slot(11), Some((19, 19)));
        assert_eq!(calendar.slot(4), None);
        assert_eq!(calendar.slot(-1), Some((-5, -5)));
        let calendar = Calendar::tested(row(&cells, 12, 7)).unwrap();
        assert_eq!(calendar.slot(3), Some((2, 6)));
        assert_eq!(calendar.slot(9), Some((9, 9)));
        assert_eq!(calendar.slot(10), Some((14, 18)));
    }
}
