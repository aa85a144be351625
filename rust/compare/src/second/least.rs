//! What a finished working row shows, and its least form.

use super::numbers::gcd;
use super::{EMPTY, LABEL_LIMIT};

/// Counts the slots per period of a working row whose labels never fall.
/// Refuses a row without a label (12) and one with a label too far out (11).
pub fn survey(cells: &[i32], distance: i64) -> Result<i64, u32> {
    let mut labels = cells.iter().copied().filter(|&cell| cell != EMPTY);
    let first = labels.next().ok_or(12u32)?;
    let mut last = first;
    let mut changes = 0;
    for label in labels {
        changes += i64::from(label != last);
        last = label;
    }
    if first < -LABEL_LIMIT || last > LABEL_LIMIT {
        return Err(11);
    }
    let turns_over = i64::from(first) + distance != i64::from(last);
    Ok(changes + i64::from(turns_over))
}

/// How often the least period goes into the row's period.
///
/// The periods of a calendar are the multiples of the least one, and distance
/// and slots per period grow with them. So the number sought divides all three,
/// and its prime factors can be found one by one.
pub fn times_repeated(cells: &[i32], distance: i64, slots: i64) -> i64 {
    let mut period = cells.len() as i64;
    let mut distance = distance;
    let mut times = 1;
    let mut rest = gcd(gcd(period, distance), slots);
    let mut prime = 2;
    while rest > 1 {
        if prime * prime > rest {
            prime = rest;
        }
        if rest % prime != 0 {
            prime += 1;
        } else if repeats(&cells[..period as usize], period / prime, distance / prime) {
            rest /= prime;
            period /= prime;
            distance /= prime;
            times *= prime;
        } else {
            while rest % prime == 0 {
                rest /= prime;
            }
        }
    }
    times
}

/// Whether each cell has the label that stands `period` cells before it, risen
/// by the distance.
pub fn repeats(cells: &[i32], period: i64, distance: i64) -> bool {
    let distance = distance as i32;
    let later = &cells[period as usize..];
    later.iter().zip(cells).all(|(&later, &earlier)| {
        if earlier == EMPTY || later == EMPTY {
            earlier == later
        } else {
            later - earlier == distance
        }
    })
}

#[cfg(test)]
mod tests {
    use super::*;

    fn shortened(cells: &[i32], distance: i64) -> i64 {
        let slots = survey(cells, distance).unwrap();
        times_repeated(cells, distance, slots)
    }

    #[test]
    fn slots_are_counted_over_the_turn() {
        assert_eq!(survey(&[0, 1, 1, 1, 1, 1, 1], 1), Ok(1));
        assert_eq!(survey(&[0], 1), Ok(1));
        assert_eq!(survey(&[EMPTY, 1, 2, 3, 4, 5, EMPTY], 7), Ok(5));
        assert_eq!(survey(&[EMPTY, EMPTY], 2), Err(12));
        assert_eq!(survey(&[0, 1_000_000_000], 1_000_000_001), Ok(2));
        assert_eq!(survey(&[0, 1_000_000_001], 1_000_000_002), Err(11));
        assert_eq!(survey(&[-1_000_000_001, 5], 1_000_000_009), Err(11));
    }

    #[test]
    fn half_a_label_does_not_exist() {
        assert_eq!(shortened(&[1, 1], 1), 1);
        assert_eq!(shortened(&[1, 1, 2, 2], 2), 2);
        assert_eq!(shortened(&[0, 1, 2, 3, 4, 5], 6), 6);
    }

    #[test]
    fn the_distance_counts() {
        // Twice the same cells, but three labels further on.
        assert_eq!(shortened(&[0, 1, 3, 4], 6), 2);
        // The second turn rises by another amount.
        assert_eq!(shortened(&[0, 1, 4, 5], 6), 1);
        assert_eq!(shortened(&[EMPTY, 1, EMPTY, 3], 4), 2);
    }
}
