//! Answers at the limits, and questions beside the plain definition.

use jogipahn::{civil, Date, Error, Heading, Headings, OpenMap, Reader, Refused, Row, Rows, Table};
use jogipahn::{EMPTY, INSTANT_MAX, STEPS_MAX};

/// A row with gaps inside its slots, and labels below 0.
const CELLS: [i32; 9] = [-2, EMPTY, -2, 0, 0, EMPTY, 1, 1, 3];
const ROW: Reader = Reader::new(&CELLS, 9, 6);

/// The label of an instant, by the plain definition.
fn label(t: i64) -> Option<i64> {
    let cell = CELLS[t.rem_euclid(9) as usize];
    (cell != EMPTY).then(|| i64::from(cell) + 6 * t.div_euclid(9))
}

#[test]
fn labels_and_places() -> Result<(), Error> {
    for t in -40..40 {
        let place = (t - 9..=t)
            .filter(|&s| label(s).is_some() && label(s) == label(t))
            .count();
        let placed = ROW.label(t)?;
        assert_eq!(placed.map(|placed| placed.label), label(t));
        assert_eq!(placed.map_or(0, |placed| placed.place), place as i64);
    }
    Ok(())
}

#[test]
fn parts_need_no_longer_list() -> Result<(), Error> {
    let days = Reader::new(&[0], 1, 1);
    for z in [-8, -6, -5, -3, -2, 0, 1, 3, 4] {
        let own: Vec<i64> = (-40..40).filter(|&t| label(t) == Some(z)).collect();
        assert_eq!(ROW.parts(days, z)?, own, "slot {z}");
    }
    Ok(())
}

#[test]
fn open_instants() -> Result<(), Error> {
    let map = ROW.open_map()?;
    let open = |t: &i64| label(*t).is_some();
    assert_eq!(
        map,
        OpenMap::from_words(map.words().to_vec(), map.period())?
    );
    for x in -20..20 {
        assert_eq!(map.next(x)?, (x + 1..).find(open).unwrap());
        assert_eq!(map.last(x)?, (-40..x).rev().find(open).unwrap());
        assert_eq!(map.nth(x, 0)?, label(x).map(|_| x));
        for y in x..20 {
            assert_eq!(map.count(x..y)?, (x..y).filter(open).count() as i64);
            assert_eq!(map.between(x, y)?, (x + 1..=y).filter(open).count() as i64);
            assert_eq!(map.between(y, x)?, -map.between(x, y)?);
        }
        for n in 1..20 {
            assert_eq!(map.nth(x, n)?, (x + 1..).filter(open).nth(n as usize - 1));
            assert_eq!(
                map.nth(x, -n)?,
                (-80..x).rev().filter(open).nth(n as usize - 1)
            );
        }
    }
    Ok(())
}

#[test]
fn answers_pass_the_limits_of_questions() -> Result<(), Error> {
    let map = OpenMap::from_words(vec![1], 64)?;
    assert!(map.next(INSTANT_MAX)? > INSTANT_MAX);
    assert!(map.last(-INSTANT_MAX)? < -INSTANT_MAX);
    assert_eq!(map.nth(0, STEPS_MAX)?, Some(64 * STEPS_MAX));
    assert_eq!(civil::date(INSTANT_MAX)?.to_string(), "+2739908-01-04");
    assert_eq!(civil::date(-INSTANT_MAX)?.to_string(), "-2735907-12-28");
    Ok(())
}

#[test]
fn dates_go_there_and_back() -> Result<(), Error> {
    for t in (-1_000_000..1_000_000).step_by(97) {
        let date = civil::date(t)?;
        assert_eq!(civil::instant(date)?, t);
        assert!(date < civil::date(t + 1)?);
    }
    assert_eq!(civil::date(0)?, Date::new(2000, 12, 31));
    Ok(())
}

#[test]
fn the_civil_table_fills_its_cells() -> Result<(), Refused> {
    let table = civil::table();
    let rows = table.convert(civil::CELLS)?;
    assert_eq!(rows.reader(civil::DAYS).to_string(), "1 1 0");
    let months = rows.heading(civil::MONTHS);
    assert_eq!((months.period, months.distance), (146_097, 4_800));
    let years = rows.heading(civil::YEARS);
    assert_eq!((years.period, years.distance), (146_097, 400));
    assert_eq!(years.start + years.period, civil::CELLS as u32);
    assert!(table.convert(civil::CELLS - 1).is_err());
    Ok(())
}

#[test]
fn rows_are_equal_exactly_if_their_calendars_are() -> Result<(), Box<dyn std::error::Error>> {
    let mut table = Table::new();
    let days = table.bottom();
    let weeks = table.group(days, 7);
    let open = table.select_down(days, weeks, 1, 5);
    let closed = table.difference(days, open);
    let both = table.union(closed, open);
    let rows = table.convert(64)?;
    let kept = [days, weeks, open, closed, both].map(|entry| rows.row(entry));
    drop(rows);
    let labels = |row: &Row| -> Vec<_> { (0..14).map(|t| row.reader().label(t)).collect() };
    for one in &kept {
        for other in &kept {
            assert_eq!(one == other, labels(one) == labels(other));
        }
    }
    assert_eq!(kept[0], kept[4]);

    // Days over two days: a row that was not converted.
    let long = Row::new(Reader::new(&[0, 1], 2, 2), 2);
    assert_eq!(labels(&long), labels(&kept[0]));
    assert_ne!(long, kept[0]);
    assert_eq!(long.reader().least_period()?.period, kept[0].period);
    let unsound = Row { period: 3, ..long };
    assert_eq!(unsound.reader().label(0), Err(Error::RowNotSound));
    Ok(())
}

#[test]
fn a_heading_may_be_any() {
    let most = Heading {
        start: u32::MAX,
        period: u32::MAX,
        distance: 1,
        slots: 1,
    };
    assert_eq!(most.reader(&[0; 4]), None);
    assert_eq!(Heading { start: 2, ..most }.reader(&[0; 4]), None);
}

#[test]
#[should_panic(expected = "entry 1 of 1")]
fn an_entry_that_the_table_does_not_have() {
    let mut table = Table::new();
    let days = table.bottom();
    let weeks = table.clone().group(days, 7);
    if let Ok(rows) = table.convert(1) {
        rows.reader(weeks);
    }
}

#[test]
fn values_cross_threads() {
    fn crosses<T: Send + Sync + 'static>() {}
    crosses::<(Table, Rows, Row, Headings, Reader<'static>)>();
    crosses::<(OpenMap, Error, Refused)>();
}
