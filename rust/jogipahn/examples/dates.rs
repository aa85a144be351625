//! Which month, which year and which delivery slot a date is in, and at which place there: that in the month is its
//! day. The civil table is handed out, and a customer's own entries stand behind it.

use jogipahn::{civil, Date};

/// The cells of the own rows, 7 each.
const OWN_CELLS: usize = 3 * 7;

fn main() -> Result<(), Box<dyn std::error::Error>> {
    let mut table = civil::table();
    // Day 1, which is 1 January 2001, is a Monday.
    let weeks = table.group(civil::DAYS, 7);
    let open = table.select_down(civil::DAYS, weeks, 1, 5);
    let slots = table.renumber(open, 1);

    let rows = table.convert(civil::CELLS + OWN_CELLS)?;
    let [month, year, slot] = [civil::MONTHS, civil::YEARS, slots].map(|entry| rows.reader(entry));
    for (name, row) in [("months", month), ("years", year)] {
        let (period, distance) = (row.period(), row.distance());
        println!("{name}: period {period}, distance {distance}");
    }

    for (y, m, d) in [(2028, 2, 29), (2028, 3, 4), (2000, 12, 31), (2100, 2, 29)] {
        let date = Date::new(y, m, d);
        let t = match civil::instant(date) {
            Ok(t) => t,
            Err(error) => {
                println!("{date} is no date: refused with {}", error.number());
                continue;
            }
        };
        print!("{date} is day {t}:");
        for (name, row) in [("month", month), ("year", year)] {
            if let Some(placed) = row.label(t)? {
                print!(" place {} in {name} {},", placed.place, placed.label);
            }
        }
        match slot.label(t)? {
            Some(placed) => println!(" delivery slot {}", placed.label),
            None => println!(" closed"),
        }
    }
    println!("day 10000 is {}", civil::date(10_000)?);
    Ok(())
}
