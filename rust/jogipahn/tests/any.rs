//! Any numbers may be handed in: nothing panics, and what is answered holds together.

use jogipahn::{civil, Allowance, Date, Entry, Error, Heading, OpenMap, Reader, Table, EMPTY};

/// Random numbers from a seed (xorshift).
struct Random(u64);

impl Random {
    fn below(&mut self, bound: u64) -> u64 {
        self.0 ^= self.0 << 13;
        self.0 ^= self.0 >> 7;
        self.0 ^= self.0 << 17;
        self.0 % bound
    }

    /// A small number most of the time, else an extreme one.
    fn number(&mut self) -> i64 {
        match self.below(12) {
            0 => [i64::MIN, i64::MAX, 1_000_000_000, -1_000_000_001][self.below(4) as usize],
            _ => self.below(24) as i64 - 6,
        }
    }

    fn cell(&mut self) -> i32 {
        match self.below(4) {
            0 => EMPTY,
            _ => self.below(6) as i32 - 2,
        }
    }
}

/// A random entry behind so many others; now and then it names itself.
fn entry(random: &mut Random, index: usize) -> [i32; 6] {
    let kind = random.below(14) as i32;
    let operand = |random: &mut Random| match random.below(20) {
        0 => index as i32,
        _ => random.below(index as u64) as i32,
    };
    let (a, b) = (operand(random), operand(random));
    let (x, y, z) = (
        random.number() as i32,
        random.number() as i32,
        random.number() as i32,
    );
    match kind {
        0 => [0; 6],
        1 | 2 | 12 => [kind, a, 0, x, 0, 0],
        3 => [kind, a, b, x, y, z],
        6 | 8 => [kind, a, b, x, y, 0],
        _ => [kind, a, b, 0, 0, 0],
    }
}

#[test]
fn tables() -> Result<(), Error> {
    let mut random = Random(0x5EED_0001);
    let (mut answered, mut numbers) = (0, [0; 21]);
    for _ in 0..20_000 {
        let mut table = Table::new();
        let days = table.bottom();
        let weeks = table.group(days, 7);
        table.select_down(days, weeks, 1, 5);
        for _ in 0..random.below(5) {
            table.push(entry(&mut random, table.len()));
        }
        match table.convert(random.below(400) as usize) {
            Ok(rows) => {
                answered += 1;
                for (row, heading) in rows.iter().zip(rows.headings().iter()) {
                    assert_eq!(row.least_period()?.period, row.period());
                    assert!(row.figures(heading.slots)?.openness > 0.0);
                }
                assert_eq!(rows.iter().count(), table.len());
            }
            Err(refused) => {
                assert!(refused.entry < table.len());
                numbers[usize::from(refused.error.number())] += 1;
            }
        }
    }
    assert!(answered > 1_000, "{answered}");
    for number in [4, 5, 6, 7, 8, 9, 12] {
        assert!(
            numbers[number] > 20,
            "refusal {number}: {}",
            numbers[number]
        );
    }
    Ok(())
}

#[test]
fn rows_and_maps() {
    let mut random = Random(0x5EED_0002);
    let mut sound = 0;
    for _ in 0..50_000 {
        let mut cells: Vec<i32> = (0..random.below(6)).map(|_| random.cell()).collect();
        cells.sort_unstable();
        let period = if random.below(8) == 0 {
            random.number()
        } else {
            cells.len() as i64
        };
        let distance = random.number();
        let row = Reader::new(&cells, period, distance);
        let (t, z, d) = (random.number(), random.number(), random.number());
        let found = row.label(t);
        sound += usize::from(found.is_ok());
        if let Ok(Some(placed)) = found {
            let parts = row.parts(row, placed.label);
            assert!(parts == Ok(vec![placed.label]) || parts == Err(Error::ArgumentOutsideLimits));
        }
        let days = Reader::new(&[0], 1, 1);
        let parts = row.parts(days, z);
        assert_eq!(
            row.down(days, z, &mut [0; 16]),
            parts.map(|parts| parts.len())
        );
        let _ = (
            row.up(days, z),
            days.up(row, z),
            row.figures(z),
            row.least_period(),
        );
        let _ = (
            row.may_be_late(z, d, Allowance::Fixed(t as f64)),
            row.to_string(),
        );
        match row.open_map() {
            Ok(map) => {
                let (count, between) = (map.count(z..t), map.between(z, t));
                assert_eq!(
                    map.nth(t, 0).map(|found| found.is_some()),
                    found.map(|found| found.is_some())
                );
                assert!(z > t || count.is_ok() == between.is_ok());
                let _ = (map.next(t), map.last(t), map.nth(t, z));
            }
            Err(error) => assert_eq!(error, Error::RowNotSound),
        }
    }
    assert!(sound > 1_000, "{sound}");
}

#[test]
fn words_headings_and_dates() {
    let mut random = Random(0x5EED_0003);
    for _ in 0..50_000 {
        let words: Vec<u64> = (0..random.below(3))
            .map(|_| random.below(1 << 20))
            .collect();
        if let Ok(map) = OpenMap::from_words(words, random.number()) {
            let open = map.nth(random.number(), 1);
            assert!(matches!(
                open,
                Ok(Some(_)) | Err(Error::ArgumentOutsideLimits)
            ));
        }
        let [start, period, distance, slots] = [(); 4].map(|()| random.number() as u32);
        let heading = Heading {
            start,
            period,
            distance,
            slots,
        };
        assert_eq!(
            heading.reader(&[0; 8]).is_some(),
            u64::from(start) + u64::from(period) <= 8
        );
        let date = Date::new(random.number(), random.number(), random.number());
        match civil::instant(date) {
            Ok(t) => assert_eq!(civil::date(t), Ok(date)),
            Err(error) => assert!(error.number() == 20 || date.year.unsigned_abs() > 2_000_000),
        }
        let _ = (date.to_string(), Entry::new(start as usize));
    }
}
