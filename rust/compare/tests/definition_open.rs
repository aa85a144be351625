//! The second implementation's open maps against their definitions, one
//! instant after the other.

use jogipahn_compare::maps::{instant_in_range, shaped_map, OwnMap, SHAPES};
use jogipahn_compare::random::Random;
use jogipahn_compare::rows::whole_row;
use jogipahn_compare::second::open::{
    between, count_open, last_open, next_open, nth_open, open_map, words_for,
};

/// "One bit for each cell, in words of 64 (cell c has weight 2^(c mod 64) in
/// word floor(c/64))", repeated every P.
fn is_open(map: &OwnMap, t: i64) -> bool {
    let cell = t.rem_euclid(map.period);
    let weight = 2u128.pow((cell % 64) as u32);
    u128::from(map.words[(cell / 64) as usize]) / weight % 2 == 1
}

fn small_map(random: &mut Random) -> OwnMap {
    let shape = random.choose(&SHAPES);
    let cells = random.choose(&[1, 2, 7, 63, 64, 65, 127, 128, 129, 200]);
    shaped_map(random, shape, cells)
}

#[test]
fn counts_and_finds() {
    let mut counted = 0;
    for seed in 0..20_000 {
        let mut random = Random::new(0x0DEF_0000 + seed);
        let map = small_map(&mut random);
        let s = instant_in_range(&mut random, map.period);
        let t = (s + random.range(0, 700)).min(1_000_000_000);
        let count = (s..t).filter(|&u| is_open(&map, u)).count() as i64;
        assert_eq!(count_open(&map.words, map.period, s, t), Ok(count));
        counted += count;
        let next = (s + 1..).find(|&u| is_open(&map, u)).unwrap();
        assert_eq!(next_open(&map.words, map.period, s), Ok(next));
        let last = (1..).map(|back| s - back).find(|&u| is_open(&map, u));
        assert_eq!(last_open(&map.words, map.period, s), Ok(last.unwrap()));
    }
    println!("{counted} instants counted");
    assert!(counted >= 1_000_000);
}

#[test]
fn steps() {
    let mut none = 0;
    for seed in 0..20_000 {
        let mut random = Random::new(0x57E9_0000 + seed);
        let map = small_map(&mut random);
        let x = instant_in_range(&mut random, map.period);
        let open_one = |t: &i64| is_open(&map, *t);
        // "One step forward is the least open instant above x, n steps are n
        // such steps, and backward alike."
        let mut at = x;
        for n in 1..=20 {
            at = (at + 1..).find(open_one).unwrap();
            assert_eq!(nth_open(&map.words, map.period, x, n), Ok(Some(at)));
        }
        let mut at = x;
        for n in 1..=20 {
            at = (1..).map(|back| at - back).find(open_one).unwrap();
            assert_eq!(nth_open(&map.words, map.period, x, -n), Ok(Some(at)));
        }
        // "Zero steps give x if x is open and none otherwise."
        let zero = is_open(&map, x).then_some(x);
        assert_eq!(nth_open(&map.words, map.period, x, 0), Ok(zero));
        none += u64::from(zero.is_none());
        // "The open instants t with x < t ≤ y, and minus that for the pair the
        // other way round."
        let y = (x + random.range(0, 700)).min(1_000_000_000);
        let count = (x + 1..=y).filter(open_one).count() as i64;
        assert_eq!(between(&map.words, map.period, x, y), Ok(count));
        assert_eq!(between(&map.words, map.period, y, x), Ok(-count));
    }
    println!("{none} times none");
    assert!(none >= 5_000);
}

#[test]
fn a_row_and_its_map_are_open_alike() {
    for seed in 0..5_000 {
        let mut random = Random::new(0xA11C_0000 + seed);
        let row = whole_row(&mut random, 200);
        let words = open_map(row.row()).unwrap();
        assert_eq!(words.len(), words_for(row.cells.len()));
        let map = OwnMap {
            words,
            period: row.period,
        };
        for t in -2 * row.period..2 * row.period {
            assert_eq!(is_open(&map, t), row.label(t).is_some(), "{t} {row:?}");
        }
    }
}

#[test]
fn what_is_no_map() {
    let ask = |words: &[u64], period| count_open(words, period, 0, 1);
    assert_eq!(ask(&[1], 1), Ok(1));
    assert_eq!(ask(&[1 << 63], 64), Ok(0));
    assert_eq!(ask(&[0, 1], 65), Ok(0));
    for (words, period) in [
        (&[][..], 0),
        (&[], 1),
        (&[], 64),
        (&[1], 0),
        (&[1], -1),
        (&[1], 65),
        (&[2], 1),
        (&[1 << 63], 63),
        (&[0], 64),
        (&[0, 0], 128),
        (&[1, 0], 64),
        (&[1, 2], 65),
        (&[1], i64::MAX),
        (&[1], i64::MIN),
        (&[1], (1 << 32) + 64),
    ] {
        assert_eq!(ask(words, period), Err(13), "{words:?} {period}");
        // 13 comes before 14.
        assert_eq!(count_open(words, period, 1, 0), Err(13));
        assert_eq!(next_open(words, period, i64::MAX), Err(13));
        assert_eq!(last_open(words, period, i64::MIN), Err(13));
        assert_eq!(nth_open(words, period, 0, i64::MIN), Err(13));
        assert_eq!(between(words, period, 0, i64::MIN), Err(13));
    }
    let mut words = vec![u64::MAX; 65_537];
    assert_eq!(ask(&words[..65_536], 4_194_304), Ok(1));
    words[65_536] = 1;
    assert_eq!(ask(&words, 4_194_305), Err(13));
}
