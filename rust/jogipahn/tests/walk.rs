//! Conversions in steps, beside whole ones.

use jogipahn::walk::{Progress, State, Walk};
use jogipahn::{Error, Heading, Refused, Table, CELLS_MAX, EMPTY};

fn table() -> Table {
    let mut table = Table::new();
    let days = table.bottom();
    let weeks = table.group(days, 7);
    let open = table.select_down(days, weeks, 1, 5);
    table.renumber(open, 1);
    table
}

/// The first entries of a table.
fn first(table: &Table, entries: usize) -> Table {
    Table::from_numbers(&table.as_numbers()[..6 * entries])
}

#[test]
fn after_each_call_the_first_entries_stand() -> Result<(), Refused> {
    let table = table();
    let (mut headings, mut pool) = ([Heading::default(); 6], [7; 64]);
    let mut state = State::start(&table, &mut headings, &mut pool)?;
    assert_eq!((headings, pool), ([Heading::default(); 6], [EMPTY; 64]));
    for k in 1..=4 {
        let progress = state.step(&table, &mut headings, &mut pool)?;
        assert_eq!(progress == Progress::Done, k == 4);
        let (mut alone, mut cells) = ([Heading::default(); 6], [7; 64]);
        first(&table, k).convert_into(&mut alone, &mut cells)?;
        assert_eq!((headings, pool), (alone, cells), "after {k} calls");
    }
    let before = (headings, pool);
    assert_eq!(
        state.step(&table, &mut headings, &mut pool)?,
        Progress::Done
    );
    assert_eq!((headings, pool), before);
    Ok(())
}

#[test]
fn a_walk_with_lists_of_its_own() -> Result<(), Refused> {
    let table = table();
    let mut walk = Walk::start(&table, 64)?;
    let entries: Vec<_> = (0..4).map(jogipahn::Entry::new).collect();
    for (k, &entry) in entries.iter().enumerate() {
        assert!(walk.get(entry).is_none());
        walk.step()?;
        let rows = first(&table, k + 1).convert(64)?;
        assert_eq!(walk.get(entry), Some(rows.reader(entry)));
    }
    assert_eq!(walk.finish()?, table.convert(64)?);
    assert_eq!(Walk::start(&table, 64)?.finish()?, table.convert(64)?);
    Ok(())
}

#[test]
fn a_refusal_ends_the_walk_and_is_repeated() -> Result<(), Refused> {
    let mut table = table();
    let open = jogipahn::Entry::new(2);
    table.difference(open, open);
    table.bottom();
    let refused = Refused {
        error: Error::NothingLabelled,
        entry: 4,
    };
    let (mut headings, mut pool) = ([Heading::default(); 6], [7; 64]);
    let mut state = State::start(&table, &mut headings, &mut pool)?;
    for _ in 0..4 {
        assert_eq!(
            state.step(&table, &mut headings, &mut pool)?,
            Progress::More
        );
    }
    for _ in 0..3 {
        assert_eq!(state.step(&table, &mut headings, &mut pool), Err(refused));
        assert_eq!((headings, pool), ([Heading::default(); 6], [EMPTY; 64]));
    }
    assert_eq!(Walk::start(&table, 64)?.finish(), Err(refused));
    Ok(())
}

/// A change of headings and pool.
type Change = fn(&mut [Heading; 6], &mut [i32; 64]);

#[test]
fn lists_are_tested_at_each_step() -> Result<(), Refused> {
    let table = table();
    let refused = Err(Refused {
        error: Error::RowNotSound,
        entry: 2,
    });
    let changes: [Change; 4] = [
        |headings, _| headings[1].start = 2,
        |headings, _| headings[3].period = 1,
        |_, pool| pool[2] = -5,
        |_, pool| pool[8] = 0,
    ];
    for change in changes {
        let (mut headings, mut pool) = ([Heading::default(); 6], [7; 64]);
        let mut state = State::start(&table, &mut headings, &mut pool)?;
        state.step(&table, &mut headings, &mut pool)?;
        state.step(&table, &mut headings, &mut pool)?;
        change(&mut headings, &mut pool);
        assert_eq!(state.step(&table, &mut headings, &mut pool), refused);
        assert_eq!((headings, pool), ([Heading::default(); 6], [EMPTY; 64]));
    }
    Ok(())
}

#[test]
fn lists_keep_their_lengths() -> Result<(), Refused> {
    let table = table();
    let refused = Err(Refused {
        error: Error::RowNotSound,
        entry: 0,
    });
    let (mut headings, mut pool) = ([Heading::default(); 6], [7; 64]);
    let state = State::start(&table, &mut headings, &mut pool)?;
    assert_eq!(
        state.clone().step(&table, &mut headings[1..], &mut pool),
        refused
    );
    assert_eq!(
        state.clone().step(&table, &mut headings, &mut pool[1..]),
        refused
    );
    assert_eq!(
        state
            .clone()
            .step(&first(&table, 3), &mut headings, &mut pool),
        refused
    );
    assert_eq!(
        state.clone().step(&table, &mut headings, &mut pool),
        Ok(Progress::More)
    );
    Ok(())
}

#[test]
fn a_changed_row_counts_as_its_calendar() -> Result<(), Refused> {
    let mut table = table();
    let (mut headings, mut pool) = ([Heading::default(); 4], [7; 64]);
    let mut state = State::start(&table, &mut headings, &mut pool)?;
    state.step(&table, &mut headings, &mut pool)?;
    state.step(&table, &mut headings, &mut pool)?;
    pool[1..8].copy_from_slice(&[0, 0, 1, 1, 1, 1, 1]);
    state.step(&table, &mut headings, &mut pool)?;
    let open = headings[2].reader(&pool).map(|row| row.to_string());
    assert_eq!(open.as_deref(), Some("7 7 . . 2 3 4 5 6"));

    // An entry counts as it stands at its own step.
    table = Table::from_numbers(&[&table.as_numbers()[..18], &[2, 2, 0, 10, 0, 0]].concat());
    assert_eq!(
        state.step(&table, &mut headings, &mut pool)?,
        Progress::Done
    );
    let shifted = headings[3].reader(&pool).map(|row| row.to_string());
    assert_eq!(shifted.as_deref(), Some("7 7 . . 12 13 14 15 16"));
    Ok(())
}

#[test]
fn the_start_makes_checks_1_to_3() {
    let start = |table: &Table, cells| Walk::start(table, cells).map(|_| ()).unwrap_err().error;
    assert_eq!(start(&Table::new(), usize::MAX), Error::TableLength);
    assert_eq!(start(&table(), CELLS_MAX + 1), Error::PoolTooLong);
    let few = State::start(&table(), &mut [Heading::default(); 3], &mut [0; 64]);
    assert_eq!(few.unwrap_err().error, Error::TooFewHeadings);
}
