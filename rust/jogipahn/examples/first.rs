//! A customer takes deliveries on five days of each week. From that table to slot numbers: which slot a day has, its
//! place in the working week, and which slots make up a week.

use jogipahn::{Table, EMPTY};

fn main() -> Result<(), Box<dyn std::error::Error>> {
    let mut table = Table::new();
    let days = table.bottom();
    let weeks = table.group(days, 7);
    let open = table.select_down(days, weeks, 1, 5);
    let slots = table.renumber(open, 1);
    let working_weeks = table.group(slots, 5);

    let rows = table.convert(64)?;
    let [week, slot, working_week] = [weeks, slots, working_weeks].map(|entry| rows.reader(entry));
    let per_period = rows.heading(slots).slots;

    let (period, distance) = (slot.period(), slot.distance());
    print!("slots: period {period}, distance {distance}, {per_period} a period:");
    for &cell in slot.cells() {
        match cell {
            EMPTY => print!(" ."),
            label => print!(" {label}"),
        }
    }
    println!();

    for day in 5..=8 {
        match slot.label(day)? {
            Some(placed) => print!("day {day} has slot {}", placed.label),
            None => print!("day {day} is closed"),
        }
        if let Some(placed) = working_week.label(day)? {
            print!(", place {} in working week {}", placed.place, placed.label);
        }
        println!();
    }
    if let Some(label) = slot.up(week, 6)? {
        println!("slot 6 is in week {label}");
    }

    print!("working week 2 is made up of slots");
    for part in working_week.parts(slot, 2)? {
        print!(" {part}");
    }
    println!();
    if let Err(error) = week.parts(slot, 2) {
        println!(
            "week 2 is not made up of slots: refused with {}",
            error.number()
        );
    }

    let figures = slot.figures(per_period)?;
    println!(
        "open {:.4}, a slot every {:.4} days",
        figures.openness, figures.mean_spacing
    );
    Ok(())
}
