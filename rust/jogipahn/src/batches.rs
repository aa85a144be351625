//! Many questions to one row in a call.

use crate::{raw, Allowance, Error, Placed, Reader};

impl Reader<'_> {
    /// [`label`](Reader::label) for each of these instants. The row is tested by rule 13 once for them all, which on a
    /// long row is nearly all of a question's time.
    ///
    /// ```
    /// use jogipahn::{Error, Placed, Reader, EMPTY};
    ///
    /// let week = Reader::new(&[EMPTY, 1, 1, 1, 1, 1, EMPTY], 7, 1);
    /// let labels = week.labels(&[5, 7, i64::MAX]);
    /// assert_eq!(labels[0], Ok(Some(Placed { label: 1, place: 5 })));
    /// assert_eq!(labels[1], Ok(None));
    /// assert_eq!(labels[2], Err(Error::ArgumentOutsideLimits));
    /// ```
    #[doc(alias = "jogipahn_up_instants")]
    pub fn labels(&self, instants: &[i64]) -> Vec<Result<Option<Placed>, Error>> {
        let mut codes = vec![0; instants.len()];
        let mut labels = codes.clone();
        let mut places = codes.clone();
        raw::up_instants(*self, instants, &mut codes, &mut labels, &mut places);
        let placed = labels.into_iter().zip(places);
        let placed = placed.map(|(label, place)| Placed { label, place });
        let answers = codes.into_iter().zip(placed);
        answers.map(|(code, placed)| if_any(code, placed)).collect()
    }

    /// [`up`](Reader::up) for each of these slots. Both rows are tested by rule 13 once for them all.
    ///
    /// ```
    /// use jogipahn::{Error, Reader};
    ///
    /// let days = Reader::new(&[0], 1, 1);
    /// let weeks = Reader::new(&[0, 1, 1, 1, 1, 1, 1], 7, 1);
    /// assert_eq!(days.up_each(weeks, &[7, 8]), [Ok(Some(1)), Ok(Some(2))]);
    /// assert_eq!(weeks.up_each(days, &[2]), [Ok(None)]);
    /// ```
    #[doc(alias = "jogipahn_up_granules")]
    pub fn up_each(&self, h: Reader<'_>, slots: &[i64]) -> Vec<Result<Option<i64>, Error>> {
        let mut codes = vec![0; slots.len()];
        let mut labels = codes.clone();
        raw::up_granules(*self, h, slots, &mut codes, &mut labels);
        let answers = codes.into_iter().zip(labels);
        answers.map(|(code, label)| if_any(code, label)).collect()
    }

    /// [`may_be_late`](Reader::may_be_late) for each of these slots, with one lateness and one allowance. The row is
    /// tested by rule 13 once for them all.
    ///
    /// ```
    /// use jogipahn::{Allowance, Error, Reader, EMPTY};
    ///
    /// let slots = Reader::new(&[EMPTY, 1, 1, 2, 2, 2, EMPTY], 7, 3);
    /// let late = slots.may_be_late_each(&[1, 2, 3], 3, Allowance::Share(1.0));
    /// assert_eq!(late, [Ok(false), Ok(true), Err(Error::NotALabel)]);
    /// ```
    #[doc(alias = "jogipahn_may_be_late_each")]
    pub fn may_be_late_each(
        &self,
        slots: &[i64],
        d: i64,
        allowance: Allowance,
    ) -> Vec<Result<bool, Error>> {
        let (rule, amount) = allowance.numbers();
        let mut codes = vec![0; slots.len()];
        raw::may_be_late_each(*self, slots, d, rule, amount, &mut codes);
        let answers = codes.into_iter();
        answers
            .map(|code| if_any(code, ()).map(|yes| yes.is_some()))
            .collect()
    }
}

/// What one code of a batch stands for: 1 is an answer, 0 none.
fn if_any<T>(code: i64, value: T) -> Result<Option<T>, Error> {
    match code {
        1 => Ok(Some(value)),
        0 => Ok(None),
        refusal => Err(Error::of_answer(refusal)),
    }
}
