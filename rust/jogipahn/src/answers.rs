//! What questions take and answer besides numbers.

/// An instant's label, and its place there.
#[derive(Clone, Copy, Debug, PartialEq, Eq, Hash)]
pub struct Placed {
    /// The label of the instant.
    pub label: i64,
    /// The instant's number among its slot's own instants, from 1: closed ones between don't count.
    pub place: i64,
}

/// What a row is like on the average.
#[derive(Clone, Copy, Debug, PartialEq)]
pub struct Figures {
    /// The part of the instants that has a label.
    pub openness: f64,
    /// The mean number of a slot's own instants.
    pub mean_length: f64,
    /// The mean number of instants from one slot to the next.
    pub mean_spacing: f64,
}

/// The least period of a row's calendar, and how it was found.
#[derive(Clone, Copy, Debug, PartialEq, Eq, Hash)]
pub struct LeastPeriod {
    /// The least period.
    pub period: i64,
    /// How many divisors were tried for it.
    pub tried: i64,
}

/// By how much a delivery may be late.
#[derive(Clone, Copy, Debug, PartialEq)]
pub enum Allowance {
    /// So many instants: finite, and not below 0.
    Fixed(f64),
    /// A share of the slot's own instants: a multiple of 1/256, above 0 and up to 1.
    Share(f64),
}

impl Allowance {
    /// The rule's number, and the amount.
    pub(crate) fn numbers(self) -> (i64, f64) {
        match self {
            Allowance::Fixed(instants) => (0, instants),
            Allowance::Share(share) => (1, share),
        }
    }
}
