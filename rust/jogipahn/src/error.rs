//! Refusals.

use std::fmt;

/// Why something is refused: one case for each number of `include/jogipahn.h`.
///
/// 1 to 12 are those of a conversion, which come as [`Refused`] with their entry; 13 to 18 those of a question; 19
/// is text that breaks its rules, and 20 a date that does not exist. Of several, a question is refused with the
/// first of 13 (each row in the order of the arguments), 14, 18, 15, 16, 17; 20 comes before 14.
///
/// ```
/// use jogipahn::{civil, Date, Error};
///
/// let error = civil::instant(Date::new(2100, 2, 29)).unwrap_err();
/// assert_eq!(error, Error::NoSuchDate);
/// assert_eq!(error.number(), 20);
/// assert_eq!(
///     error.to_string(),
///     "the date does not exist; give a month of 1 to 12 and a day of that month (refusal 20)"
/// );
/// ```
#[derive(Clone, Copy, Debug, PartialEq, Eq, PartialOrd, Ord, Hash)]
#[repr(u8)]
#[non_exhaustive]
pub enum Error {
    /// 1: the table's length is not 6 times 1 to 64.
    TableLength = 1,
    /// 2: fewer headings than entries.
    TooFewHeadings = 2,
    /// 3: a pool above [`CELLS_MAX`](crate::CELLS_MAX) cells.
    PoolTooLong = 3,
    /// 4: a kind that is not 0 to 12.
    UnknownKind = 4,
    /// 5: an operand that is no earlier entry.
    OperandNotEarlier = 5,
    /// 6: x, y or z outside its limits, or a number that the kind does not name and that is not 0.
    NumberOutsideLimits = 6,
    /// 7: an operand that must be full is not.
    OperandNotFull = 7,
    /// 8: the entry's row does not fit into what is left of the pool.
    TooLong = 8,
    /// 9: operands that are not aligned.
    NotAligned = 9,
    /// 10: alter would leave a slot with fewer than one fine slot.
    SlotEmptied = 10,
    /// 11: a label of the result outside the limits.
    LabelOutsideLimits = 11,
    /// 12: no instant of the result has a label.
    NothingLabelled = 12,
    /// 13: a row, a row's number of slots or an open map that is handed in is none.
    RowNotSound = 13,
    /// 14: an instant, a label, a lateness or a number of steps outside the limits.
    ArgumentOutsideLimits = 14,
    /// 15: the given label is not one of its row.
    NotALabel = 15,
    /// 16: the slots do not make up the whole slot.
    PartsIncomplete = 16,
    /// 17: more parts than the list holds.
    ListTooShort = 17,
    /// 18: an allowance that is not allowed.
    AllowanceNotAllowed = 18,
    /// 19: text that breaks its rules.
    TextNotAllowed = 19,
    /// 20: a date that does not exist.
    NoSuchDate = 20,
}

/// Every refusal, by number.
const ALL: [Error; 20] = [
    Error::TableLength,
    Error::TooFewHeadings,
    Error::PoolTooLong,
    Error::UnknownKind,
    Error::OperandNotEarlier,
    Error::NumberOutsideLimits,
    Error::OperandNotFull,
    Error::TooLong,
    Error::NotAligned,
    Error::SlotEmptied,
    Error::LabelOutsideLimits,
    Error::NothingLabelled,
    Error::RowNotSound,
    Error::ArgumentOutsideLimits,
    Error::NotALabel,
    Error::PartsIncomplete,
    Error::ListTooShort,
    Error::AllowanceNotAllowed,
    Error::TextNotAllowed,
    Error::NoSuchDate,
];

impl Error {
    /// The refusal's number, 1 to 20.
    ///
    /// ```
    /// assert_eq!(jogipahn::Error::NotAligned.number(), 9);
    /// ```
    pub const fn number(self) -> u8 {
        self as u8
    }

    /// The refusal with a number, if there is one.
    ///
    /// ```
    /// use jogipahn::Error;
    ///
    /// assert_eq!(Error::from_number(9), Some(Error::NotAligned));
    /// assert_eq!(Error::from_number(21), None);
    /// ```
    pub fn from_number(number: u8) -> Option<Error> {
        ALL.get(usize::from(number).checked_sub(1)?).copied()
    }

    /// What is wrong, and what to do.
    fn message(self) -> &'static str {
        match self {
            Error::TableLength => {
                "the table has no entry, more than 64, or part of one; give 1 to 64 entries of six numbers"
            }
            Error::TooFewHeadings => "there are fewer headings than entries; lend one for each entry",
            Error::PoolTooLong => "the pool is too long; lend at most 4,194,304 cells",
            Error::UnknownKind => "the kind is unknown; give one of 0 to 12",
            Error::OperandNotEarlier => "an operand is no earlier entry; name entries that stand before this one",
            Error::NumberOutsideLimits => {
                "x, y or z is outside the limits of its kind; keep to them, and give 0 for what the kind does not name"
            }
            Error::OperandNotFull => "an operand lacks labels; make it full first, as renumber does",
            Error::TooLong => {
                "the row does not fit into the rest of the pool; lend more cells, or choose shorter periods"
            }
            Error::NotAligned => "the operands are not aligned; build both from the same slots and labels",
            Error::SlotEmptied => "alter would take all fine slots of a slot; take fewer, by a greater z",
            Error::LabelOutsideLimits => {
                "a label of the result is outside -1,000,000,000 to 1,000,000,000; shift it nearer to 0"
            }
            Error::NothingLabelled => "no instant of the result has a label; select or keep at least one slot",
            Error::RowNotSound => {
                "a row, its number of slots or an open map is not sound; hand in what a conversion or a row has given"
            }
            Error::ArgumentOutsideLimits => {
                "an argument is outside its limits, or a stretch ends before it begins; keep instants and labels \
                 within 1,000,000,000, lateness within 0 to 1,048,576 and steps within 1,000,000"
            }
            Error::NotALabel => "the given label is not one of its row; ask for a slot that the row has",
            Error::PartsIncomplete => "the slots do not make up the whole slot; ask a row whose slots do",
            Error::ListTooShort => "the list is too short for the parts; lend a longer one",
            Error::AllowanceNotAllowed => {
                "the allowance is not allowed; give a finite number of instants from 0 on, or a share of 1/256 to 1 in \
                 steps of 1/256"
            }
            Error::TextNotAllowed => {
                "the text breaks its rules; give lines of six decimal numbers of 32 bits, a single space between, each \
                 ended by a line feed, up to 4,096 bytes"
            }
            Error::NoSuchDate => "the date does not exist; give a month of 1 to 12 and a day of that month",
        }
    }

    /// The refusal that a question answers with: minus its number.
    pub(crate) fn of_answer(answer: i64) -> Error {
        let error = u8::try_from(answer.unsigned_abs())
            .ok()
            .and_then(Error::from_number);
        error.unwrap_or_else(|| unknown(answer))
    }
}

/// Stops at an answer that the header does not name: the archive is of another version.
pub(crate) fn unknown(answer: i64) -> ! {
    panic!(
        "the archive answers {answer}, which jogipahn {} does not know",
        env!("CARGO_PKG_VERSION")
    )
}

impl fmt::Display for Error {
    fn fmt(&self, f: &mut fmt::Formatter<'_>) -> fmt::Result {
        write!(f, "{} (refusal {})", self.message(), self.number())
    }
}

impl std::error::Error for Error {}

/// A table that is refused: why, and at which entry.
///
/// ```
/// use jogipahn::{Error, Refused, Table};
///
/// let mut table = Table::new();
/// let days = table.bottom();
/// table.group(days, 7);
/// let refused = table.convert(7).unwrap_err();
/// assert_eq!(refused, Refused { error: Error::TooLong, entry: 1 });
/// assert_eq!(
///     refused.to_string(),
///     "entry 1: the row does not fit into the rest of the pool; \
///      lend more cells, or choose shorter periods (refusal 8)"
/// );
/// ```
#[derive(Clone, Copy, Debug, PartialEq, Eq, Hash)]
pub struct Refused {
    /// Why.
    pub error: Error,
    /// The entry, from 0, and 0 for 1 to 3, which are about the whole table; for 19 the first bad line, from 0.
    pub entry: usize,
}

impl Refused {
    /// The refusal of a conversion's answer: 100 times its number plus its entry.
    pub(crate) fn of_answer(answer: i64) -> Refused {
        let (Ok(number), Ok(entry)) = (u8::try_from(answer / 100), usize::try_from(answer % 100))
        else {
            unknown(answer);
        };
        match Error::from_number(number) {
            Some(error) => Refused { error, entry },
            None => unknown(answer),
        }
    }
}

impl fmt::Display for Refused {
    fn fmt(&self, f: &mut fmt::Formatter<'_>) -> fmt::Result {
        match self.error.number() {
            1..=3 => self.error.fmt(f),
            19 => write!(f, "line {}: {}", self.entry, self.error),
            _ => write!(f, "entry {}: {}", self.entry, self.error),
        }
    }
}

impl std::error::Error for Refused {
    fn source(&self) -> Option<&(dyn std::error::Error + 'static)> {
        Some(&self.error)
    }
}
