//! Each refusal, from input that brings it about, with its message; and the order of several.

use jogipahn::{civil, Allowance, Date, Entry, Error, Headings, OpenMap, Reader, Refused, Table};
use jogipahn::{CELLS_MAX, EMPTY, INSTANT_MAX, LATE_MAX, STEPS_MAX};

/// The error's number, having compared its message.
#[track_caller]
fn says(error: Error, number: u8, message: &str) {
    assert_eq!(error.number(), number);
    assert_eq!(error.to_string(), format!("{message} (refusal {number})"));
    assert_eq!(Error::from_number(number), Some(error));
}

/// What a table is refused with.
#[track_caller]
fn refused(table: &Table, entry: usize) -> Error {
    let refused = table.convert(64).unwrap_err();
    assert_eq!(refused.entry, entry);
    refused.error
}

/// Days, weeks, and open days twice: by their days, and numbered one by one.
fn table() -> (Table, [Entry; 4]) {
    let mut table = Table::new();
    let days = table.bottom();
    let weeks = table.group(days, 7);
    let open = table.select_down(days, weeks, 1, 5);
    let slots = table.renumber(open, 1);
    (table, [days, weeks, open, slots])
}

/// The error of the base with an entry behind it.
#[track_caller]
fn with(add: impl Fn(&mut Table, [Entry; 4]) -> Entry) -> Error {
    let (mut table, entries) = table();
    let entry = add(&mut table, entries);
    refused(&table, entry.index())
}

const WEEKS: Reader = Reader::new(&[0, 1, 1, 1, 1, 1, 1], 7, 1);
const OPEN: Reader = Reader::new(&[EMPTY, 1, 2, 3, 4, 5, EMPTY], 7, 7);
const NO_ROW: Reader = Reader::new(&[2, 1], 2, 1);

#[test]
fn lengths_of_the_lists() {
    let message =
        "the table has no entry, more than 64, or part of one; give 1 to 64 entries of six numbers";
    says(refused(&Table::new(), 0), 1, message);
    says(refused(&Table::from_numbers(&[0; 7]), 0), 1, message);
    says(refused(&Table::from_numbers(&[0; 6 * 65]), 0), 1, message);
    let mut broken = Table::from_numbers(&[0; 7]);
    broken.bottom();
    says(refused(&broken, 0), 1, message);

    let message = "there are fewer headings than entries; lend one for each entry";
    let few = table().0.convert_into(&mut Headings::new(3), &mut [0; 64]);
    says(few.unwrap_err().error, 2, message);

    let message = "the pool is too long; lend at most 4,194,304 cells";
    says(
        table().0.convert(CELLS_MAX + 1).unwrap_err().error,
        3,
        message,
    );
    says(table().0.convert(usize::MAX).unwrap_err().error, 3, message);
}

#[test]
fn numbers_of_an_entry() {
    let message = "the kind is unknown; give one of 0 to 12";
    says(with(|table, _| table.push([13, 0, 0, 0, 0, 0])), 4, message);
    says(with(|table, _| table.push([-1, 0, 0, 0, 0, 0])), 4, message);

    let message = "an operand is no earlier entry; name entries that stand before this one";
    says(with(|table, _| table.shift(Entry::new(4), 1)), 5, message);
    says(
        with(|table, _| table.shift(Entry::new(usize::MAX), 1)),
        5,
        message,
    );

    let message =
        "x, y or z is outside the limits of its kind; keep to them, and give 0 for what the kind does not name";
    says(with(|table, [days, ..]| table.group(days, 0)), 6, message);
    says(with(|table, _| table.push([0, 0, 0, 0, 0, 1])), 6, message);
}

#[test]
fn operands_and_results() {
    let message = "an operand lacks labels; make it full first, as renumber does";
    says(
        with(|table, [_, _, open, _]| table.group(open, 5)),
        7,
        message,
    );
    let message = "the row does not fit into the rest of the pool; lend more cells, or choose shorter periods";
    says(
        with(|table, [days, ..]| table.group(days, 1000)),
        8,
        message,
    );
    let message = "the operands are not aligned; build both from the same slots and labels";
    says(
        with(|table, [_, _, open, slots]| table.union(open, slots)),
        9,
        message,
    );
    let message = "alter would take all fine slots of a slot; take fewer, by a greater z";
    says(
        with(|table, [days, weeks, ..]| table.alter(days, weeks, 1, 1, -7)),
        10,
        message,
    );
    let message =
        "a label of the result is outside -1,000,000,000 to 1,000,000,000; shift it nearer to 0";
    let far = |table: &mut Table, days| table.shift(days, 1_000_000_000);
    says(with(|table, [_, weeks, ..]| far(table, weeks)), 11, message);
    let message = "no instant of the result has a label; select or keep at least one slot";
    says(
        with(|table, [_, _, open, _]| table.difference(open, open)),
        12,
        message,
    );
}

#[test]
fn rows_and_maps() {
    let message =
        "a row, its number of slots or an open map is not sound; hand in what a conversion or a row has given";
    let unsound = [
        NO_ROW,
        Reader::new(&[], 0, 1),
        Reader::new(&[0], 1, 0),
        Reader::new(&[0], 2, 1),
        Reader::new(&[EMPTY], 1, 1),
        Reader::new(&[0], i64::MIN, i64::MAX),
    ];
    for row in unsound {
        says(row.label(0).unwrap_err(), 13, message);
        says(row.up(WEEKS, 0).unwrap_err(), 13, message);
        says(WEEKS.up(row, 0).unwrap_err(), 13, message);
        says(row.parts(WEEKS, 0).unwrap_err(), 13, message);
        says(WEEKS.parts(row, 0).unwrap_err(), 13, message);
        says(row.down(WEEKS, 0, &mut []).unwrap_err(), 13, message);
        says(row.figures(1).unwrap_err(), 13, message);
        says(row.least_period().unwrap_err(), 13, message);
        says(
            row.may_be_late(0, 0, Allowance::Fixed(0.0)).unwrap_err(),
            13,
            message,
        );
        says(row.open_map().unwrap_err(), 13, message);
    }
    says(WEEKS.figures(2).unwrap_err(), 13, message);
    says(WEEKS.figures(-1).unwrap_err(), 13, message);
    for (words, period) in [
        (vec![], 0),
        (vec![0], 7),
        (vec![1 << 7], 7),
        (vec![1, 1], 64),
        (vec![1], 65),
    ] {
        says(OpenMap::from_words(words, period).unwrap_err(), 13, message);
    }
}

#[test]
fn arguments() -> Result<(), Error> {
    let message = "an argument is outside its limits, or a stretch ends before it begins; keep instants and labels \
                   within 1,000,000,000, lateness within 0 to 1,048,576 and steps within 1,000,000";
    let map = OPEN.open_map()?;
    let fixed = Allowance::Fixed(0.0);
    for far in [INSTANT_MAX + 1, -INSTANT_MAX - 1, i64::MAX, i64::MIN] {
        says(OPEN.label(far).unwrap_err(), 14, message);
        says(OPEN.up(WEEKS, far).unwrap_err(), 14, message);
        says(WEEKS.parts(OPEN, far).unwrap_err(), 14, message);
        says(OPEN.may_be_late(far, 0, fixed).unwrap_err(), 14, message);
        says(civil::date(far).unwrap_err(), 14, message);
        says(map.count(far..far).unwrap_err(), 14, message);
        says(map.next(far).unwrap_err(), 14, message);
        says(map.last(far).unwrap_err(), 14, message);
        says(map.nth(far, 1).unwrap_err(), 14, message);
        says(map.between(0, far).unwrap_err(), 14, message);
    }
    says(OPEN.may_be_late(1, -1, fixed).unwrap_err(), 14, message);
    says(
        OPEN.may_be_late(1, LATE_MAX + 1, fixed).unwrap_err(),
        14,
        message,
    );
    says(map.nth(1, STEPS_MAX + 1).unwrap_err(), 14, message);
    let (later, earlier) = (2, 1);
    says(map.count(later..earlier).unwrap_err(), 14, message);
    says(
        civil::instant(Date::new(3_000_000, 1, 1)).unwrap_err(),
        14,
        message,
    );
    Ok(())
}

#[test]
fn slots_and_parts() {
    let message = "the given label is not one of its row; ask for a slot that the row has";
    says(OPEN.up(WEEKS, 6).unwrap_err(), 15, message);
    says(OPEN.parts(WEEKS, 6).unwrap_err(), 15, message);
    says(
        OPEN.may_be_late(6, 0, Allowance::Fixed(0.0)).unwrap_err(),
        15,
        message,
    );
    let message = "the slots do not make up the whole slot; ask a row whose slots do";
    says(WEEKS.parts(OPEN, 2).unwrap_err(), 16, message);
    let message = "the list is too short for the parts; lend a longer one";
    let mut parts = [9; 6];
    says(
        WEEKS
            .down(Reader::new(&[0], 1, 1), 2, &mut parts)
            .unwrap_err(),
        17,
        message,
    );
    assert_eq!(parts, [0; 6]);
}

#[test]
fn allowances() {
    let message = "the allowance is not allowed; give a finite number of instants from 0 on, or a share of 1/256 to 1 \
                   in steps of 1/256";
    let fixed = [-1.0, f64::NAN, f64::INFINITY].map(Allowance::Fixed);
    let shares = [0.0, -0.0, 2.0, 1.0 / 512.0, f64::NAN, -0.5].map(Allowance::Share);
    for allowance in fixed.into_iter().chain(shares) {
        says(OPEN.may_be_late(1, 0, allowance).unwrap_err(), 18, message);
    }
}

#[test]
fn texts_and_dates() {
    let message = "the text breaks its rules; give lines of six decimal numbers of 32 bits, a single space between, \
                   each ended by a line feed, up to 4,096 bytes";
    let bad: Refused = "0 0 0 0 0 0\n0 0\n".parse::<Table>().unwrap_err();
    says(bad.error, 19, message);
    assert_eq!(bad.to_string(), format!("line 1: {message} (refusal 19)"));
    let message = "the date does not exist; give a month of 1 to 12 and a day of that month";
    for date in [
        (2001, 2, 29),
        (2100, 2, 29),
        (2001, 13, 1),
        (2001, 0, 1),
        (2001, 1, 0),
        (i64::MAX, 1, 32),
    ] {
        let date = Date::new(date.0, date.1, date.2);
        says(civil::instant(date).unwrap_err(), 20, message);
    }
}

#[test]
fn the_first_of_several_is_given() {
    let far = INSTANT_MAX + 1;
    let (bad, fixed) = (Allowance::Share(2.0), Allowance::Fixed(0.0));
    assert_eq!(NO_ROW.label(far), Err(Error::RowNotSound));
    assert_eq!(
        OPEN.may_be_late(far, 0, bad),
        Err(Error::ArgumentOutsideLimits)
    );
    assert_eq!(OPEN.may_be_late(6, 0, bad), Err(Error::AllowanceNotAllowed));
    assert_eq!(OPEN.may_be_late(6, 0, fixed), Err(Error::NotALabel));
    assert_eq!(WEEKS.down(OPEN, 2, &mut []), Err(Error::PartsIncomplete));
    assert_eq!(
        civil::instant(Date::new(i64::MAX, 2, 30)),
        Err(Error::NoSuchDate)
    );
    assert_eq!(
        Table::new().convert(usize::MAX).unwrap_err().error,
        Error::TableLength
    );
}

#[test]
fn numbers_are_1_to_20() {
    for number in 0..=u8::MAX {
        let error = Error::from_number(number);
        assert_eq!(
            error.map(Error::number),
            (1..=20).contains(&number).then_some(number)
        );
    }
}
