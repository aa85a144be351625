//! The check of finished rows.

use jogipahn::{check, Entry, Error, Fault, Heading, Refused, Table};

fn table() -> Table {
    let mut table = Table::new();
    let days = table.bottom();
    let weeks = table.group(days, 7);
    table.select_down(days, weeks, 1, 5);
    table
}

#[test]
fn what_a_conversion_leaves_is_accepted() -> Result<(), Refused> {
    let table = table();
    for cells in [15, 16, 64] {
        let rows = table.convert(cells)?;
        assert_eq!(check(&table, rows.headings(), rows.pool()), Ok(()));
    }
    Ok(())
}

#[test]
fn every_changed_number_is_found_at_its_entry() -> Result<(), Refused> {
    let table = table();
    let (mut headings, mut pool) = ([Heading::default(); 5], [0; 20]);
    table.convert_into(&mut headings, &mut pool)?;
    assert_eq!(check(&table, &headings, &pool), Ok(()));
    let at = |entry| match entry {
        0..=2 => Err(Fault::Entry(Entry::new(entry))),
        _ => Err(Fault::Rest),
    };
    for cell in 0..pool.len() {
        let mut changed = pool;
        changed[cell] = changed[cell].wrapping_add(1);
        let entry = (0..3)
            .find(|&entry| cell < headings[entry].start as usize + headings[entry].period as usize);
        assert_eq!(
            check(&table, &headings, &changed),
            at(entry.unwrap_or(3)),
            "cell {cell}"
        );
    }
    for (entry, number) in
        (0..headings.len()).flat_map(|entry| (0..4).map(move |number| (entry, number)))
    {
        let mut changed = headings;
        let heading = &mut changed[entry];
        let field = [
            &mut heading.start,
            &mut heading.period,
            &mut heading.distance,
            &mut heading.slots,
        ]
        .into_iter()
        .nth(number);
        *field.unwrap() += 1;
        assert_eq!(
            check(&table, &changed, &pool),
            at(entry),
            "number {number} of heading {entry}"
        );
    }
    Ok(())
}

#[test]
fn a_refusal_comes_with_its_entry() -> Result<(), Refused> {
    let mut table = table();
    let rows = table.convert(64)?;
    table.push([13, 0, 0, 0, 0, 0]);
    let mut headings = rows.headings().to_vec();
    let refused = |error, entry| Err(Fault::Refused(Refused { error, entry }));
    assert_eq!(
        check(&table, &headings, rows.pool()),
        refused(Error::TooFewHeadings, 0)
    );
    headings.push(Heading {
        period: 5,
        ..Heading::default()
    });
    assert_eq!(
        check(&table, &headings, rows.pool()),
        refused(Error::UnknownKind, 3)
    );
    headings[1].slots = 2;
    assert_eq!(
        check(&table, &headings, rows.pool()),
        Err(Fault::Entry(Entry::new(1)))
    );
    assert_eq!(
        check(&Table::new(), &[], &[]),
        refused(Error::TableLength, 0)
    );
    Ok(())
}

#[test]
fn faults_say_what_is_wrong() {
    let refused = Refused {
        error: Error::NotAligned,
        entry: 2,
    };
    assert_eq!(Fault::Refused(refused).to_string(), refused.to_string());
    let entry = "entry 3: the heading or the row is not what the table gives; ask for it anew";
    assert_eq!(Fault::Entry(Entry::new(3)).to_string(), entry);
    let rest = "headings or cells behind the last row are not empty; empty them";
    assert_eq!(Fault::Rest.to_string(), rest);
}
