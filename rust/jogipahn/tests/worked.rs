//! The slots that document 01 has worked by hand, and those questions to them that it answers.

use jogipahn::{Entry, Error, Heading, Headings, Placed, Refused, Table, EMPTY};

/// Days, weeks, B and C of document 01.
struct Base {
    table: Table,
    days: Entry,
    weeks: Entry,
    b: Entry,
    c: Entry,
}

fn base() -> Base {
    let mut table = Table::new();
    let days = table.bottom();
    let weeks = table.group(days, 7);
    let b = table.select_down(days, weeks, 1, 5);
    let c = table.renumber(b, 1);
    Base {
        table,
        days,
        weeks,
        b,
        c,
    }
}

/// The line of an entry that is put behind the base: period, distance and cells.
fn line(add: impl Fn(&mut Base) -> Entry) -> Result<String, u8> {
    let mut base = base();
    let entry = add(&mut base);
    let rows = base.table.convert(4096).map_err(|refused| {
        assert_eq!(refused.entry, entry.index());
        refused.error.number()
    })?;
    Ok(rows.reader(entry).to_string())
}

fn odd(base: &mut Base) -> Entry {
    let pairs = base.table.group(base.days, 2);
    base.table.select_down(base.days, pairs, 1, 1)
}

fn even(base: &mut Base) -> Entry {
    let pairs = base.table.group(base.days, 2);
    base.table.select_down(base.days, pairs, 2, 1)
}

fn answer(text: &str) -> Result<String, u8> {
    Ok(text.to_owned())
}

#[test]
fn weeks_and_open_days() {
    assert_eq!(line(|base| base.weeks), answer("7 1 0 1 1 1 1 1 1"));
    assert_eq!(line(|base| base.b), answer("7 7 . 1 2 3 4 5 ."));
    assert_eq!(line(|base| base.c), answer("7 5 . 1 2 3 4 5 ."));
    let at_6 = line(|base| base.table.renumber(base.b, 6));
    assert_eq!(at_6, answer("7 5 . -4 -3 -2 -1 0 ."));
}

#[test]
fn instant_8_is_8_in_b_and_6_in_c() -> Result<(), Box<dyn std::error::Error>> {
    let base = base();
    let rows = base.table.convert(64)?;
    assert_eq!(
        rows.reader(base.b).label(8)?,
        Some(Placed { label: 8, place: 1 })
    );
    assert_eq!(
        rows.reader(base.c).label(8)?,
        Some(Placed { label: 6, place: 1 })
    );
    assert_eq!(
        rows.reader(base.weeks)
            .label(-6)?
            .map(|placed| placed.label),
        Some(0)
    );
    assert_eq!(
        rows.reader(base.weeks)
            .label(-7)?
            .map(|placed| placed.label),
        Some(-1)
    );
    Ok(())
}

#[test]
fn groups_of_open_days() {
    assert_eq!(
        line(|base| base.table.group(base.c, 5)),
        answer("7 1 . 1 1 1 1 1 .")
    );
    assert_eq!(line(|base| base.table.group(base.b, 5)), Err(7));
    let threes = line(|base| base.table.group(base.c, 3));
    assert_eq!(
        threes,
        answer("21 5 . 1 1 1 2 2 . . 2 3 3 3 4 . . 4 4 5 5 5 .")
    );
}

#[test]
fn odd_and_even_days() {
    assert_eq!(line(odd), answer("2 2 . 1"));
    assert_eq!(line(even), answer("2 2 0 ."));
    let both = line(|base| {
        let (odd, even) = (odd(base), even(base));
        base.table.union(odd, even)
    });
    assert_eq!(both, answer("1 1 0"));
    let anchored = line(|base| {
        let odd = odd(base);
        base.table.anchor(base.days, odd)
    });
    assert_eq!(anchored, answer("2 2 -1 1"));
}

#[test]
fn altered_and_combined() {
    let altered = |z| {
        line(|base| {
            let pairs = base.table.group(base.days, 2);
            base.table.alter(base.days, pairs, 3, 2, z)
        })
    };
    assert_eq!(altered(1), answer("7 3 0 1 1 2 2 2 3"));
    assert_eq!(altered(-2), Err(10));
    let combined = line(|base| {
        let pairs = base.table.group(base.days, 2);
        base.table.combine(base.weeks, pairs)
    });
    assert_eq!(combined, answer("14 2 0 1 1 1 1 1 1 . . 2 2 2 2 2"));
}

#[test]
fn differences_and_what_is_not_aligned() {
    assert_eq!(
        line(|base| base.table.difference(base.days, base.b)),
        answer("7 7 0 . . . . . 6")
    );
    assert_eq!(line(|base| base.table.union(base.b, base.c)), Err(9));
    assert_eq!(line(|base| base.table.difference(base.b, base.b)), Err(12));
}

#[test]
fn a_pool_of_ten_cells() -> Result<(), Refused> {
    let mut table = Table::new();
    let days = table.bottom();
    table.group(days, 7);
    let rows = table.convert(10)?;
    let heading = |start, period| Heading {
        start,
        period,
        distance: 1,
        slots: 1,
    };
    let headings = Headings::from(vec![heading(0, 1), heading(1, 7)]);
    assert_eq!(rows.headings(), &headings);
    assert_eq!(rows.pool(), [0, 0, 1, 1, 1, 1, 1, 1, EMPTY, EMPTY]);
    assert_eq!(table.convert(8)?.pool(), [0, 0, 1, 1, 1, 1, 1, 1]);
    assert_eq!(
        table.convert(7),
        Err(Refused {
            error: Error::TooLong,
            entry: 1
        })
    );
    Ok(())
}

#[test]
fn lent_lists_are_written_to_their_ends() {
    let mut table = Table::new();
    let days = table.bottom();
    let dirt = Heading {
        start: 7,
        period: 7,
        distance: 7,
        slots: 7,
    };
    let (mut headings, mut pool) = ([dirt; 3], [7; 4]);
    assert_eq!(table.convert_into(&mut headings, &mut pool), Ok(()));
    assert_eq!(headings[1..], [Heading::default(); 2]);
    assert_eq!(pool, [0, EMPTY, EMPTY, EMPTY]);

    table.group(days, 7);
    (headings, pool) = ([dirt; 3], [7; 4]);
    assert!(table.convert_into(&mut headings, &mut pool).is_err());
    assert_eq!(headings, [Heading::default(); 3]);
    assert_eq!(pool, [EMPTY; 4]);
}
