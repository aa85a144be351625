//! The kinds of entries. Each function makes the working row of one entry at
//! the beginning of the room and returns its period and distance, or refuses
//! in the order 7, 8 for the span, 9, 10, 8 for the working period. Refusal 12
//! is judged on the finished row, 11 there or where a label is written: no row
//! calls for both.

use std::ops::{Range, RangeInclusive};

use super::numbers::{ceil_div, gcd, lcm};
use super::slots::{never_fall, raise, Operand, Ranges, Slots, Stretch};
use super::{EMPTY, LABEL_LIMIT};

/// Period and distance of a finished working row.
pub struct Working {
    pub period: usize,
    pub distance: i64,
}

/// Which labels kinds 9 to 11 keep.
#[derive(Clone, Copy)]
pub enum Sets {
    Union,
    Intersection,
    Difference,
}

/// Which slots selecting takes out of several.
#[derive(Clone, Copy)]
pub struct Pick {
    pub x: i64,
    pub y: i64,
}

impl Pick {
    /// The positions taken out of `count`, counted from 0.
    fn positions(self, count: usize) -> Range<usize> {
        let count = count as i64;
        let begin = if self.x > 0 {
            self.x - 1
        } else {
            count + self.x
        };
        let end = begin + self.y;
        let begin = begin.clamp(0, count);
        let end = end.clamp(begin, count);
        begin as usize..end as usize
    }
}

pub fn bottom(room: &mut [i32]) -> Result<Working, u32> {
    let cells = take(room, 1)?;
    cells[0] = 0;
    Ok(Working {
        period: 1,
        distance: 1,
    })
}

pub fn group(a: Operand, x: i64, room: &mut [i32]) -> Result<Working, u32> {
    require_full(a)?;
    take(room, a.period() as i64)?;
    let common = gcd(x, a.distance);
    let cells = take(room, a.period() as i64 * (x / common))?;
    // The group at hand, and its last label in a.
    let mut label = i64::MIN;
    let mut last = i64::MIN;
    for (turn, cells) in (0i64..).zip(cells.chunks_exact_mut(a.period())) {
        let risen = turn * a.distance;
        for (cell, &own) in cells.iter_mut().zip(a.cells) {
            *cell = if own == EMPTY {
                EMPTY
            } else {
                let own = i64::from(own) + risen;
                if own > last {
                    label = ceil_div(own, x);
                    last = label * x;
                }
                label as i32
            };
        }
    }
    Ok(Working {
        period: cells.len(),
        distance: a.distance / common,
    })
}

pub fn shift(a: Operand, x: i32, room: &mut [i32]) -> Result<Working, u32> {
    let cells = take(room, a.period() as i64)?;
    for (cell, &own) in cells.iter_mut().zip(a.cells) {
        *cell = raise(own, x);
    }
    Ok(Working {
        period: cells.len(),
        distance: a.distance,
    })
}

pub fn renumber(a: Operand, x: i64, room: &mut [i32]) -> Result<Working, u32> {
    let cells = take(room, a.period() as i64)?;
    let stretch = Stretch::new(a, a.period());
    let slots = stretch.slots();
    let count = slots.begins().len() as i64;
    let label_at = |&begin: &u32| i64::from(stretch.labels[begin as usize]);
    // The slot with the least label not below x, all slots being numbered
    // through from the first that begins in the row.
    let turn = (x - label_at(&slots.begins()[0])).div_euclid(a.distance);
    let rest = x - turn * a.distance;
    let below = slots
        .begins()
        .partition_point(|begin| label_at(begin) < rest);
    let one = turn * count + below as i64;
    for (number, (now, later)) in (0..).zip(slots.ranges()) {
        let label = number - one + 1;
        write(label, &stretch, now, cells)?;
        write(label - count, &stretch, later, cells)?;
    }
    Ok(Working {
        period: cells.len(),
        distance: count,
    })
}

pub fn alter(
    fine: Operand,
    coarse: Operand,
    x: i64,
    y: i64,
    z: i64,
    room: &mut [i32],
) -> Result<Working, u32> {
    require_full(fine)?;
    require_full(coarse)?;
    let span = take_span(fine, coarse, room)?.len();
    let slots = CoarseSlots::new(&Stretch::new(fine, span), &Stretch::new(coarse, span))?;

    // Of the coarse slots that repeat every `rise` labels, those are altered
    // somewhere whose label has y's residue by every common divisor.
    let rise = slots.count() as i64;
    let common = gcd(rise, x);
    let shortest = (slots.first_label..)
        .zip(0..slots.count())
        .filter(|&(label, _)| (label - y) % common == 0)
        .map(|(_, place)| slots.size(place) + z)
        .min();
    if shortest.is_some_and(|size| size < 1) {
        return Err(10);
    }

    let coarse_rise = lcm(rise, x);
    let fine_rise = coarse_rise / rise * slots.fine_rise + coarse_rise / x * z;
    let times = fine.distance / gcd(fine_rise, fine.distance);
    let period = i128::from(times) * i128::from(fine_rise) * fine.period() as i128
        / i128::from(fine.distance);
    let cells = take(room, period)?;

    let mut walk = None;
    for (turn, cells) in (0i64..).zip(cells.chunks_exact_mut(fine.period())) {
        let risen = turn * fine.distance;
        for (cell, &own) in cells.iter_mut().zip(fine.cells) {
            *cell = if own == EMPTY {
                EMPTY
            } else {
                let own = i64::from(own) + risen;
                if walk.is_none() {
                    walk = Some(slots.altered_at(own, x, y, z)?);
                }
                let walk = walk.as_mut().expect("set just before");
                while walk.last < own {
                    walk.step();
                }
                cell_for(walk.label)?
            };
        }
    }
    Ok(Working {
        period: cells.len(),
        distance: times * coarse_rise,
    })
}

/// The coarse operand's slots of one span, told in fine slots.
struct CoarseSlots {
    /// Label of the first slot listed; the others follow one by one.
    first_label: i64,
    /// The last fine label in each slot.
    lasts: Vec<i32>,
    /// How far the fine labels rise over the span.
    fine_rise: i64,
}

impl CoarseSlots {
    /// Both operands are full. Refuses (9) if they aren't aligned.
    fn new(fine: &Stretch, coarse: &Stretch) -> Result<Self, u32> {
        let last = coarse.labels.iter().rposition(|&label| label != EMPTY);
        let last = last.expect("a calendar has a label");
        if fine.labels[last] == EMPTY {
            return Err(9);
        }
        let mut fine_before = fine.labels[last] - fine.rise;
        let mut coarse_before = coarse.labels[last] - coarse.rise;
        let first_label = i64::from(coarse_before);
        let mut lasts = Vec::with_capacity(coarse.rise as usize);
        for (&fine, &coarse) in fine.labels.iter().zip(coarse.labels.iter()) {
            if (fine == EMPTY) != (coarse == EMPTY) {
                return Err(9);
            }
            if coarse == EMPTY {
                continue;
            }
            if coarse != coarse_before {
                // A slot has ended, and the fine one must have ended with it.
                if fine == fine_before {
                    return Err(9);
                }
                lasts.push(fine_before);
                coarse_before = coarse;
            }
            fine_before = fine;
        }
        Ok(CoarseSlots {
            first_label,
            lasts,
            fine_rise: i64::from(fine.rise),
        })
    }

    fn count(&self) -> usize {
        self.lasts.len()
    }

    /// How many fine slots make up the slot at a place of the list.
    fn size(&self, place: usize) -> i64 {
        let last = i64::from(self.lasts[place]);
        match place.checked_sub(1) {
            Some(before) => last - i64::from(self.lasts[before]),
            None => last - i64::from(self.lasts[self.count() - 1]) + self.fine_rise,
        }
    }

    /// The altered slot that holds the fine slot `own`. Refuses (11) if its
    /// label is too far out.
    fn altered_at(&self, own: i64, x: i64, y: i64, z: i64) -> Result<AlteredWalk<'_>, u32> {
        let count = self.count() as i128;
        let first_label = i128::from(self.first_label);
        // The last fine label of any altered slot. Labels far out come up
        // here: 128 bits hold them all.
        let last_of = |label: i128| {
            let turn = (label - first_label).div_euclid(count);
            let place = (label - first_label).rem_euclid(count) as usize;
            let altered = (label - i128::from(y)).div_euclid(i128::from(x)) + 1;
            i128::from(self.lasts[place])
                + turn * i128::from(self.fine_rise)
                + altered * i128::from(z)
        };
        // Each altered slot has at least one fine slot, so that the label
        // sought is no further off than the fine label.
        let own = i128::from(own);
        let away = own - last_of(first_label);
        let mut low = first_label + away.min(0);
        let mut high = first_label + away.max(0);
        while low < high {
            let middle = low + (high - low) / 2;
            if last_of(middle) < own {
                low = middle + 1;
            } else {
                high = middle;
            }
        }
        if low.abs() > i128::from(LABEL_LIMIT) {
            return Err(11);
        }
        let label = low as i64;
        Ok(AlteredWalk {
            slots: self,
            x,
            z,
            label,
            last: last_of(low) as i64,
            place: (low - first_label).rem_euclid(count) as usize,
            residue: (label - y).rem_euclid(x),
        })
    }
}

/// A walk over the altered slots, upward.
struct AlteredWalk<'a> {
    slots: &'a CoarseSlots,
    x: i64,
    z: i64,
    /// Label of the slot at hand.
    label: i64,
    /// Its last fine label.
    last: i64,
    /// The place of the coarse slot with that label in the list.
    place: usize,
    /// label − y by x.
    residue: i64,
}

impl AlteredWalk<'_> {
    fn step(&mut self) {
        self.label += 1;
        self.place += 1;
        if self.place == self.slots.count() {
            self.place = 0;
        }
        self.last += self.slots.size(self.place);
        self.residue += 1;
        if self.residue == self.x {
            self.residue = 0;
            self.last += self.z;
        }
    }
}

pub fn combine(a: Operand, b: Operand, room: &mut [i32]) -> Result<Working, u32> {
    let cells = take_span(a, b, room)?;
    let outer = Stretch::new(a, cells.len());
    let inner = Stretch::new(b, cells.len());
    cells.fill(EMPTY);
    for ranges in inner.slots().ranges() {
        if let Some(label) = inner.holder(ranges.clone(), &outer) {
            let (now, later) = ranges;
            write(label.into(), &inner, now, cells)?;
            write((label - outer.rise).into(), &inner, later, cells)?;
        }
    }
    Ok(over_span(&outer))
}

pub fn anchor(a: Operand, b: Operand, room: &mut [i32]) -> Result<Working, u32> {
    require_full(a)?;
    let cells = take_span(a, b, room)?;
    let all = Stretch::new(a, cells.len());
    let some = Stretch::new(b, cells.len());
    let equal_where_labelled = all
        .labels
        .iter()
        .zip(some.labels.iter())
        .all(|(&all, &some)| some == EMPTY || some == all);
    if all.rise != some.rise || !equal_where_labelled {
        return Err(9);
    }
    // Labels being equal, each slot of a has to be b's slot or free of b.
    let slots = all.slots();
    let is_anchor = |begin: usize| some.labels[begin] != EMPTY;
    for (now, later) in slots.ranges() {
        let marked = is_anchor(now.start);
        for range in [now, later] {
            let labels = all.labels[range.clone()].iter().zip(&some.labels[range]);
            let mut labels = labels.filter(|(&all, _)| all != EMPTY);
            if !labels.all(|(_, &some)| (some != EMPTY) == marked) {
                return Err(9);
            }
        }
    }

    let last_anchor = slots
        .begins()
        .iter()
        .rfind(|&&begin| is_anchor(begin as usize));
    let last_anchor = *last_anchor.expect("b has a label") as usize;
    let mut label = i64::from(all.labels[last_anchor] - all.rise);
    for (now, later) in slots.ranges() {
        if is_anchor(now.start) {
            label = i64::from(all.labels[now.start]);
        }
        write(label, &all, now, cells)?;
        write(label - i64::from(all.rise), &all, later, cells)?;
    }
    Ok(over_span(&all))
}

pub fn select_down(a: Operand, b: Operand, pick: Pick, room: &mut [i32]) -> Result<Working, u32> {
    let cells = take_span(a, b, room)?;
    let own = Stretch::new(a, cells.len());
    let other = Stretch::new(b, cells.len());
    let slots = own.slots();
    // The slots that lie inside one of b's, and the labels of these. Slots of
    // a inside the same one are neighbours in this list, which again rises
    // with each turn.
    let mut inside = Vec::new();
    let mut holders = Vec::new();
    for (slot, ranges) in slots.ranges().enumerate() {
        if let Some(holder) = own.holder(ranges, &other) {
            inside.push(slot as u32);
            holders.push(holder);
        }
    }
    cells.fill(EMPTY);
    for (now, later) in Slots::new(&holders, other.rise).ranges() {
        for position in pick.positions(now.len() + later.len()) {
            let place = (now.start + position) % inside.len();
            keep(&own, slots.ranges_of(inside[place] as usize), cells);
        }
    }
    Ok(over_span(&own))
}

pub fn select_up(a: Operand, b: Operand, room: &mut [i32]) -> Result<Working, u32> {
    let cells = take_span(a, b, room)?;
    let own = Stretch::new(a, cells.len());
    let other = Stretch::new(b, cells.len());
    cells.fill(EMPTY);
    for ranges in other.slots().ranges() {
        let begin = ranges.0.start;
        if other.holder(ranges, &own).is_some() {
            cells[begin] = MARK;
        }
    }
    keep_marked(&own, cells);
    Ok(over_span(&own))
}

pub fn select_by_meeting(
    a: Operand,
    b: Operand,
    pick: Pick,
    room: &mut [i32],
) -> Result<Working, u32> {
    let cells = take_span(a, b, room)?;
    let own = Stretch::new(a, cells.len());
    let other = Stretch::new(b, cells.len());
    cells.fill(EMPTY);
    // Of each slot of a that b's slot at hand meets, an instant.
    let mut met = Vec::new();
    for (now, later) in other.slots().ranges() {
        met.clear();
        let mut before = EMPTY;
        for (range, risen) in [(now, 0), (later, own.rise)] {
            let labels = own.labels[range.clone()]
                .iter()
                .zip(&other.labels[range.clone()]);
            for (t, (&own, &other)) in range.zip(labels) {
                let label = raise(own, risen);
                if label != EMPTY && label != before && other != EMPTY {
                    met.push(t as u32);
                    before = label;
                }
            }
        }
        for &t in &met[pick.positions(met.len())] {
            cells[t as usize] = MARK;
        }
    }
    keep_marked(&own, cells);
    Ok(over_span(&own))
}

pub fn sets(a: Operand, b: Operand, which: Sets, room: &mut [i32]) -> Result<Working, u32> {
    let cells = take_span(a, b, room)?;
    let first = Stretch::new(a, cells.len());
    let second = Stretch::new(b, cells.len());
    // With different rises labels would fall sooner or later, or an instant
    // have two.
    if first.rise != second.rise {
        return Err(9);
    }
    // The labels of both together.
    for (cell, (&first, &second)) in cells
        .iter_mut()
        .zip(first.labels.iter().zip(second.labels.iter()))
    {
        if first != EMPTY && second != EMPTY && first != second {
            return Err(9);
        }
        // The empty mark is below every label.
        *cell = first.max(second);
    }
    if !never_fall(cells, first.rise) {
        return Err(9);
    }
    for (now, later) in Slots::new(cells, first.rise).ranges() {
        let labelled = |labels: &[i32]| {
            let count = |range: Range<usize>| {
                labels[range]
                    .iter()
                    .filter(|&&label| label != EMPTY)
                    .count()
            };
            count(now.clone()) + count(later.clone())
        };
        let length = labelled(cells);
        let in_first = labelled(&first.labels);
        let in_second = labelled(&second.labels);
        let shared = in_first > 0 && in_second > 0;
        if shared && (in_first < length || in_second < length) {
            return Err(9);
        }
        let taken = match which {
            Sets::Union => true,
            Sets::Intersection => shared,
            Sets::Difference => in_second == 0,
        };
        if !taken {
            cells[now].fill(EMPTY);
            cells[later].fill(EMPTY);
        }
    }
    Ok(over_span(&first))
}

/// What marks a slot to be kept: any label in the cell of one of its instants.
const MARK: i32 = 0;

/// Leaves in the cells the labels of those slots only that have a marked cell.
fn keep_marked(stretch: &Stretch, cells: &mut [i32]) {
    for (now, later) in stretch.slots().ranges() {
        let marked = |cells: &[i32]| cells.iter().any(|&cell| cell != EMPTY);
        if marked(&cells[now.clone()]) || marked(&cells[later.clone()]) {
            keep(stretch, (now, later), cells);
        }
    }
}

/// Copies a slot's labels into the cells of its instants.
fn keep(stretch: &Stretch, (now, later): Ranges, cells: &mut [i32]) {
    for range in [now, later] {
        cells[range.clone()].copy_from_slice(&stretch.labels[range]);
    }
}

/// Writes a label to the cells of a range whose instants have one, and none to
/// the others. Refuses (11) a label too far out.
fn write(label: i64, stretch: &Stretch, range: Range<usize>, cells: &mut [i32]) -> Result<(), u32> {
    let own = &stretch.labels[range.clone()];
    for (cell, &own) in cells[range].iter_mut().zip(own) {
        *cell = if own == EMPTY {
            EMPTY
        } else {
            cell_for(label)?
        };
    }
    Ok(())
}

fn over_span(stretch: &Stretch) -> Working {
    Working {
        period: stretch.labels.len(),
        distance: i64::from(stretch.rise),
    }
}

fn require_full(operand: Operand) -> Result<(), u32> {
    if operand.is_full() {
        Ok(())
    } else {
        Err(7)
    }
}

/// As many cells of the room as the span of two operands, or refusal 8.
fn take_span<'r>(a: Operand, b: Operand, room: &'r mut [i32]) -> Result<&'r mut [i32], u32> {
    take(room, lcm(a.period() as i64, b.period() as i64))
}

/// So many cells of the room, or refusal 8.
fn take(room: &mut [i32], length: impl TryInto<usize>) -> Result<&mut [i32], u32> {
    let length = length.try_into().map_err(|_| 8u32)?;
    room.get_mut(..length).ok_or(8)
}

/// A label as a cell, or refusal 11 if it is too far out.
fn cell_for(label: i64) -> Result<i32, u32> {
    const LIMITS: RangeInclusive<i64> = -(LABEL_LIMIT as i64)..=LABEL_LIMIT as i64;
    if LIMITS.contains(&label) {
        Ok(label as i32)
    } else {
        Err(11)
    }
}

#[cfg(test)]
mod tests {
    use super::*;

    #[test]
    fn picked_positions_are_cut_at_both_ends() {
        let picked = |x, y, count| Pick { x, y }.positions(count);
        assert_eq!(picked(1, 5, 7), 0..5);
        assert_eq!(picked(6, 5, 7), 5..7);
        assert!(picked(8, 1, 7).is_empty());
        assert_eq!(picked(-1, 1, 7), 6..7);
        assert_eq!(picked(-3, 2, 7), 4..6);
        assert_eq!(picked(-8, 2, 7), 0..1);
        assert!(picked(-8, 1, 7).is_empty());
        assert_eq!(picked(-1_000_000, 1_000_000, 7), 0..7);
        assert!(picked(1, 1, 0).is_empty());
    }
}
