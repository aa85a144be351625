//! A calendar over a span of instants, and where its slots begin.

use std::borrow::Cow;
use std::ops::Range;

use super::EMPTY;

/// An earlier entry's row, taken as an operand.
#[derive(Clone, Copy)]
pub struct Operand<'a> {
    pub cells: &'a [i32],
    pub distance: i64,
    /// Slots per period.
    pub slots: i64,
}

impl Operand<'_> {
    pub fn period(&self) -> usize {
        self.cells.len()
    }

    /// Every whole number is a label.
    pub fn is_full(&self) -> bool {
        self.slots == self.distance
    }
}

/// The labels of instants 0 to span − 1, and how far labels rise over the span.
///
/// No label passes 32 bits: a row's labels stay within ±1,000,000,000, and as
/// the distance isn't above the period, the rise isn't above the span.
pub struct Stretch<'a> {
    pub labels: Cow<'a, [i32]>,
    pub rise: i32,
}

impl<'a> Stretch<'a> {
    /// Writes the operand's row out over a span, a multiple of its period.
    pub fn new(operand: Operand<'a>, span: usize) -> Self {
        let distance = operand.distance as i32;
        let turns = (span / operand.period()) as i32;
        let labels = if turns == 1 {
            Cow::Borrowed(operand.cells)
        } else {
            let mut labels = Vec::with_capacity(span);
            for turn in 0..turns {
                let risen = turn * distance;
                labels.extend(operand.cells.iter().map(|&cell| raise(cell, risen)));
            }
            Cow::Owned(labels)
        };
        Stretch {
            labels,
            rise: turns * distance,
        }
    }

    pub fn slots(&self) -> Slots {
        Slots::new(&self.labels, self.rise)
    }

    /// The label of the other calendar's slot that holds all of the slot with
    /// these ranges.
    pub fn holder(&self, (now, later): Ranges, other: &Stretch) -> Option<i32> {
        let label = other.labels[now.start];
        let all_in = |range: Range<usize>, label: i32| {
            let own = self.labels[range.clone()].iter();
            own.zip(&other.labels[range])
                .all(|(&own, &others)| own == EMPTY || others == label)
        };
        let held = label != EMPTY && all_in(now, label) && all_in(later, label - other.rise);
        held.then_some(label)
    }
}

/// A cell's label raised; no label stays none.
pub fn raise(cell: i32, rise: i32) -> i32 {
    if cell == EMPTY {
        EMPTY
    } else {
        cell + rise
    }
}

/// Whether labels that rise so far over a turn never fall, from the last of
/// a turn to the first of the next either.
pub fn never_fall(labels: &[i32], rise: i32) -> bool {
    let mut labels = labels.iter().copied().filter(|&label| label != EMPTY);
    let Some(first) = labels.next() else {
        return true;
    };
    let mut last = first;
    for label in labels {
        if label < last {
            return false;
        }
        last = label;
    }
    last <= first + rise
}

/// Instants of the span, and instants of the next turn less the span.
pub type Ranges = (Range<usize>, Range<usize>);

/// Where slots begin in a list of labels that never fall and rise with each
/// turn: the labels of a span, or any others.
///
/// A slot's labelled instants are all those from its own beginning up to the
/// next slot's. Only the last slot reaches into the next turn, up to where the
/// first one begins.
pub struct Slots {
    begins: Vec<u32>,
    span: usize,
}

impl Slots {
    pub fn new(labels: &[i32], rise: i32) -> Self {
        let mut begins = Vec::new();
        if let Some(&last) = labels.iter().rfind(|&&label| label != EMPTY) {
            let mut before = last - rise;
            for (t, &label) in labels.iter().enumerate() {
                if label != EMPTY && label != before {
                    begins.push(t as u32);
                    before = label;
                }
            }
        }
        Slots {
            begins,
            span: labels.len(),
        }
    }

    /// The first instants of the slots that begin in the span.
    pub fn begins(&self) -> &[u32] {
        &self.begins
    }

    /// The ranges of all these slots. Together they are the span.
    pub fn ranges(&self) -> impl Iterator<Item = Ranges> + '_ {
        (0..self.begins.len()).map(|slot| self.ranges_of(slot))
    }

    /// The ranges in which one of these slots has its instants.
    pub fn ranges_of(&self, slot: usize) -> Ranges {
        let begin = self.begins[slot] as usize;
        match self.begins.get(slot + 1) {
            Some(&end) => (begin..end as usize, 0..0),
            None => (begin..self.span, 0..self.begins[0] as usize),
        }
    }
}

#[cfg(test)]
mod tests {
    use super::*;

    #[test]
    fn the_last_slot_reaches_into_the_next_turn() {
        let week = Operand {
            cells: &[0, 1, 1, 1, 1, 1, 1],
            distance: 1,
            slots: 1,
        };
        let stretch = Stretch::new(week, 14);
        assert_eq!(
            stretch.labels[..],
            [0, 1, 1, 1, 1, 1, 1, 1, 2, 2, 2, 2, 2, 2]
        );
        assert_eq!(stretch.rise, 2);
        let ranges: Vec<Ranges> = stretch.slots().ranges().collect();
        assert_eq!(ranges, [(1..8, 0..0), (8..14, 0..1)]);
    }

    #[test]
    fn gaps_belong_to_no_slot() {
        let odd = Stretch {
            labels: Cow::Borrowed(&[EMPTY, 1, EMPTY, 1, EMPTY, 3]),
            rise: 3,
        };
        let slots = odd.slots();
        assert_eq!(slots.begins(), [1, 5]);
        let whole = Stretch {
            labels: Cow::Borrowed(&[5, 5, 5, 5, 5, 6]),
            rise: 3,
        };
        assert_eq!(odd.holder(slots.ranges_of(0), &whole), Some(5));
        assert_eq!(odd.holder(slots.ranges_of(1), &whole), Some(6));
        assert_eq!(odd.holder(slots.ranges_of(1), &odd), Some(3));
        let slots = whole.slots();
        assert_eq!(whole.holder(slots.ranges_of(0), &odd), None);
        assert!(Slots::new(&[EMPTY], 1).ranges().next().is_none());
    }

    #[test]
    fn falling_is_seen_at_the_turn_too() {
        assert!(never_fall(&[1, EMPTY, 1, 3], 2));
        assert!(!never_fall(&[1, EMPTY, 1, 4], 2));
        assert!(!never_fall(&[1, EMPTY, 0, 3], 9));
        assert!(never_fall(&[EMPTY], 1));
    }
}
