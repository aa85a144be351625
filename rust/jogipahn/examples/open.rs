//! A customer is open on Monday, Tuesday, Thursday and Friday; a delivery week is those four days. How late a delivery
//! may be, which days are open, and how many there are between two.

use jogipahn::Allowance::{Fixed, Share};
use jogipahn::{Reader, Table, EMPTY};

/// A week's open days as one slot: a row need not come from a conversion. Day 1 is a Monday.
const WEEK: Reader = Reader::new(&[EMPTY, 1, 1, EMPTY, 1, 1, EMPTY], 7, 1);

fn yes(answer: bool) -> &'static str {
    match answer {
        true => "yes",
        false => "no",
    }
}

fn main() -> Result<(), Box<dyn std::error::Error>> {
    let mut table = Table::new();
    let days = table.bottom();
    let weeks = table.group(days, 7);
    let wednesdays = table.select_down(days, weeks, 3, 1);
    let weekdays = table.select_down(days, weeks, 1, 5);
    let open = table.difference(weekdays, wednesdays);
    let rows = table.convert(64)?;

    // A delivery week has four open days: a share of 1/2 allows two days, a share of 1 four, though it lasts from
    // Monday to Friday.
    let half = WEEK.may_be_late(1, 2, Share(0.5))?;
    println!("half a delivery week late by 2 days: {}", yes(half));
    let (four, five) = (
        WEEK.may_be_late(1, 4, Share(1.0))?,
        WEEK.may_be_late(1, 5, Share(1.0))?,
    );
    println!(
        "a whole one late by 4 days: {}, by 5: {}",
        yes(four),
        yes(five)
    );
    let fixed = WEEK.may_be_late(1, 3, Fixed(2.5))?;
    println!("late by 3 days, where 2.5 are allowed: {}", yes(fixed));
    if let Err(error) = WEEK.may_be_late(1, 1, Share(0.0)) {
        println!(
            "a share that was left blank: refused with {}",
            error.number()
        );
    }

    let map = rows.reader(open).open_map()?;
    println!("open days from day 1 to day 365: {}", map.count(1..366)?);
    println!("the next open day after day 2 is day {}", map.next(2)?);
    println!("the last open day before day 8 is day {}", map.last(8)?);
    if let Some(day) = map.nth(5, 10)? {
        print!("ten open days after day 5 is day {day}");
        if let Some(back) = map.nth(day, -10)? {
            println!(", and ten before that day {back}");
        }
    }
    println!(
        "open days after day 5 up to day 19: {}",
        map.between(5, 19)?
    );

    let least = rows.reader(open).least_period()?;
    println!(
        "the least period of the open days is {}, found by {} try",
        least.period, least.tried
    );
    Ok(())
}
