//! So many open instants from another: the proved core against the second
//! implementation.

use jogipahn_compare::core;
use jogipahn_compare::counts::Counts;
use jogipahn_compare::maps::{
    damage, instant_in_range, instant_outside, shaped_map, whole_map, OwnMap, DAMAGES, SHAPES,
};
use jogipahn_compare::random::Random;
use jogipahn_compare::second::open::{self as second, STEP_LIMIT};
use jogipahn_compare::second::CELL_LIMIT;

const LIMIT: i64 = 1_000_000_000;

/// So many maps are asked, each for steps and for a number between.
const MAPS: u64 = 100_000;

/// Asks both for the instant so many steps from x.
fn compare_nth(map: &OwnMap, x: i64, steps: i64) -> Result<Option<i64>, u32> {
    let answer = core::nth_open(&map.words, map.period, x, steps);
    let expected = second::nth_open(&map.words, map.period, x, steps);
    assert_eq!(answer, expected, "{steps} from {x}, period {}", map.period);
    answer
}

/// Asks both for the number between x and y.
fn compare_between(map: &OwnMap, x: i64, y: i64) -> Result<i64, u32> {
    let answer = core::between(&map.words, map.period, x, y);
    let expected = second::between(&map.words, map.period, x, y);
    assert_eq!(answer, expected, "{x} to {y}, period {}", map.period);
    answer
}

fn in_range(t: i64) -> bool {
    (-LIMIT..=LIMIT).contains(&t)
}

/// How many steps are asked for.
const STEPS: [&str; 6] = ["0", "1", "few", "a turn", "many", "the most"];

fn any_steps(random: &mut Random, sort: &str, per_turn: i64) -> i64 {
    let steps = match sort {
        "0" => 0,
        "1" => 1,
        "few" => random.range(2, 40),
        "a turn" => per_turn * random.range(1, 3) + random.range(-1, 1),
        "many" => random.range(41, STEP_LIMIT),
        _ => STEP_LIMIT,
    };
    random.choose(&[-1, 1]) * steps.min(STEP_LIMIT)
}

/// How the instant reached lies to x.
fn kind_of_step(map: &OwnMap, x: i64, reached: Option<i64>) -> &'static str {
    match reached {
        None => "none",
        Some(t) if t == x => "x itself",
        Some(t) if t.abs() > 2 * LIMIT => "far past the range",
        Some(t) if !in_range(t) => "past the range",
        Some(t) if (t - x).abs() > map.period => "turns away",
        Some(_) => "within a turn",
    }
}

#[test]
fn steps_are_taken_alike() {
    let mut counts = Counts::default();
    let mut by_single_steps = 0;
    for seed in 0..MAPS {
        let mut random = Random::new(0x57E_0000 + seed);
        let (shape, map) = whole_map(&mut random);
        let open = map.open();
        let x = instant_in_range(&mut random, map.period);
        let sort = random.choose(&STEPS);
        let steps = any_steps(&mut random, sort, open.per_turn());
        let reached = compare_nth(&map, x, steps).expect("an instant or none");
        if steps.abs() <= 40 {
            assert_eq!(reached, open.nth_by_steps(x, steps), "{steps} from {x}");
            by_single_steps += 1;
        }
        let kind = kind_of_step(&map, x, reached);
        let way = ["back", "stay", "on"][(steps.signum() + 1) as usize];
        counts.add(format!("{way}, {sort}: {kind}"));
        counts.add(format!("of a map with {shape}"));
        // Between x and the n-th after it there are n; before it, open ones
        // that count are x and those above the one reached.
        let between = match reached {
            Some(t) if steps != 0 && in_range(t) => compare_between(&map, x, t),
            _ => continue,
        };
        let counted = if steps > 0 {
            steps
        } else {
            steps + i64::from(!open.is_open(x))
        };
        assert_eq!(between, Ok(counted), "{steps} from {x}");
        counts.add(format!("{way}: as many between"));
    }
    println!("{by_single_steps} also by single steps");
    counts.print();
    assert!(by_single_steps >= 50_000);
    for shape in SHAPES {
        counts.assert_least(&format!("of a map with {shape}"), 5_000);
    }
    counts.assert_least("stay, 0: none", 5_000);
    counts.assert_least("stay, 0: x itself", 5_000);
    for way in ["back", "on"] {
        for sort in &STEPS[1..] {
            counts.assert_least(&format!("{way}, {sort}: "), 5_000);
        }
        for sort in ["many", "the most"] {
            counts.assert_least(&format!("{way}, {sort}: turns away"), 2_000);
            counts.assert_least(&format!("{way}, {sort}: past the range"), 500);
        }
        counts.assert_least(&format!("{way}, few: within a turn"), 2_000);
        counts.assert_least(&format!("{way}, a turn: "), 2_000);
        counts.assert_least(&format!("{way}: as many between"), 20_000);
    }
    counts.assert_least("past the range", 5_000);
}

#[test]
fn numbers_between_are_alike() {
    let mut counts = Counts::default();
    for seed in 0..MAPS {
        let mut random = Random::new(0xBE7_0000 + seed);
        let (_, map) = whole_map(&mut random);
        let x = instant_in_range(&mut random, map.period);
        let y = match random.below(4) {
            0 => (x + random.range(-100, 100)).clamp(-LIMIT, LIMIT),
            1 if random.percent(20) => x,
            _ => instant_in_range(&mut random, map.period),
        };
        let number = compare_between(&map, x, y).expect("a number");
        // The other way round it is minus that.
        assert_eq!(compare_between(&map, y, x), Ok(-number));
        // Counting from s up to but not including t.
        if x < y && y < LIMIT {
            let count = core::count_open(&map.words, map.period, x + 1, y + 1);
            assert_eq!(count, Ok(number));
            counts.add("as counted");
        }
        // Over a third instant.
        let z = instant_in_range(&mut random, map.period);
        let parts = compare_between(&map, x, z).and_then(|part| {
            let rest = compare_between(&map, z, y)?;
            Ok(part + rest)
        });
        assert_eq!(parts, Ok(number), "{x} over {z} to {y}");
        let way = match y.cmp(&x) {
            std::cmp::Ordering::Less => "down",
            std::cmp::Ordering::Equal => "the same instant",
            std::cmp::Ordering::Greater => "up",
        };
        let kind = match number.abs() {
            0 => "none",
            number if number == (y - x).abs() => "all",
            _ if (y - x).abs() > map.period => "over a turn and more",
            _ => "within a turn",
        };
        counts.add(format!("{way}: {kind}"));
    }
    counts.print();
    for way in ["up", "down"] {
        for kind in ["none", "all", "over a turn and more", "within a turn"] {
            counts.assert_least(&format!("{way}: {kind}"), 1_000);
        }
    }
    counts.assert_least("the same instant: none", 2_000);
    counts.assert_least("as counted", 20_000);
}

#[test]
fn forward_and_back() {
    let mut counts = Counts::default();
    for seed in 0..40_000 {
        let mut random = Random::new(0xF0B_0000 + seed);
        let (_, map) = whole_map(&mut random);
        let open = map.open();
        let somewhere = instant_in_range(&mut random, map.period);
        let x = core::next_open(&map.words, map.period, somewhere).expect("an instant");
        if !in_range(x) {
            counts.add("x past the range");
            assert_eq!(compare_nth(&map, x, 1), Err(14));
            continue;
        }
        let sort = random.choose(&STEPS[1..]);
        let steps = any_steps(&mut random, sort, open.per_turn());
        if steps == 0 {
            continue;
        }
        let reached = compare_nth(&map, x, steps).expect("in range").expect("one");
        let back = compare_nth(&map, reached, -steps);
        if in_range(reached) {
            assert_eq!(back, Ok(Some(x)), "{steps} from {x}");
            let there = compare_between(&map, x, reached);
            assert_eq!(there, Ok(steps), "{steps} from {x}");
            counts.add(format!("{sort}: back at x"));
        } else {
            assert_eq!(back, Err(14));
            counts.add("reached past the range");
        }
    }
    counts.print();
    for sort in &STEPS[1..] {
        counts.assert_least(&format!("{sort}: back at x"), 1_000);
    }
    counts.assert_least("x past the range", 500);
    counts.assert_least("reached past the range", 1_000);
}

#[test]
fn refusals() {
    let mut counts = Counts::default();
    for seed in 0..16_000 {
        let mut random = Random::new(0x4EF_0000 + seed);
        let (_, whole) = whole_map(&mut random);
        let (x, y) = (
            instant_in_range(&mut random, whole.period),
            instant_in_range(&mut random, whole.period),
        );
        let outside = instant_outside(&mut random);
        let steps = random.range(-STEP_LIMIT, STEP_LIMIT);
        let away = random.choose(&[-1, 1]);
        let too_many = match random.below(3) {
            0 => away * (STEP_LIMIT + 1),
            1 => away * random.range(STEP_LIMIT + 1, 1 << 40),
            _ => random.choose(&[i64::MIN, i64::MAX, 1 << 32, -(1 << 32)]),
        };
        let steps_asked = [
            ("x outside", outside, steps),
            ("too many steps", x, too_many),
            ("x outside and too many steps", outside, too_many),
        ];
        let pairs_asked = [
            ("x outside of two", outside, y),
            ("y outside", x, outside),
            ("both outside", outside, instant_outside(&mut random)),
        ];
        for (what, x, steps) in steps_asked {
            assert_eq!(compare_nth(&whole, x, steps), Err(14), "{what}");
            counts.add(format!("refused 14: {what}"));
        }
        for (what, x, y) in pairs_asked {
            assert_eq!(compare_between(&whole, x, y), Err(14), "{what}");
            counts.add(format!("refused 14: {what}"));
        }
        // A map just above the limit is long; some of them are enough.
        let way = random.choose(&DAMAGES);
        let mut map = whole.clone();
        let long = way == "a period just above the limit" && random.percent(90);
        if long || !damage(&mut map, way, &mut random) {
            continue;
        }
        // 13 comes before 14.
        let asked_well = [("", x, steps), ("", x, 0), ("", x, away)];
        for (_, x, steps) in steps_asked.into_iter().chain(asked_well) {
            assert_eq!(compare_nth(&map, x, steps), Err(13), "{way}");
        }
        for (_, x, y) in pairs_asked.into_iter().chain([("", x, y), ("", x, x)]) {
            assert_eq!(compare_between(&map, x, y), Err(13), "{way}");
        }
        counts.add(format!("refused 13: {way}"));
    }
    counts.print();
    counts.assert_each(6 + DAMAGES.len(), 100);
}

#[test]
fn the_widest_steps() {
    let mut random = Random::new(0x31DE);
    for cells in [1, 63, 64, 65, 1 << 20, CELL_LIMIT - 1, CELL_LIMIT] {
        for shape in SHAPES {
            let map = shaped_map(&mut random, shape, cells);
            for x in [-LIMIT, 0, LIMIT] {
                for steps in [-STEP_LIMIT, -1, 1, STEP_LIMIT] {
                    let reached = compare_nth(&map, x, steps).expect("in range");
                    let reached = reached.expect("an instant");
                    if shape == "all bits" {
                        assert_eq!(reached, x + steps);
                    } else if shape == "one bit" {
                        // A turn a step.
                        let away = (reached - x).abs();
                        let turns = steps.abs() * cells as i64;
                        assert!((turns - cells as i64..=turns).contains(&away));
                    }
                }
                for steps in [-STEP_LIMIT - 1, STEP_LIMIT + 1] {
                    assert_eq!(compare_nth(&map, x, steps), Err(14));
                }
                assert_eq!(compare_between(&map, x, x), Ok(0));
            }
            for x in [-LIMIT - 1, LIMIT + 1] {
                assert_eq!(compare_nth(&map, x, 0), Err(14));
                assert_eq!(compare_nth(&map, x, 1), Err(14));
                assert_eq!(compare_between(&map, x, 0), Err(14));
                assert_eq!(compare_between(&map, 0, x), Err(14));
            }
            let all = compare_between(&map, -LIMIT, LIMIT).expect("a number");
            assert_eq!(compare_between(&map, LIMIT, -LIMIT), Ok(-all));
            if shape == "all bits" {
                assert_eq!(all, 2 * LIMIT);
            }
        }
    }
}
