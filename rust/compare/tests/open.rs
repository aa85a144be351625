//! Open maps: the proved core against the second implementation.

use jogipahn_compare::core;
use jogipahn_compare::counts::Counts;
use jogipahn_compare::maps::{
    damage, instant_in_range, instant_outside, shaped_map, whole_map, OwnMap, DAMAGES, SHAPES,
};
use jogipahn_compare::random::Random;
use jogipahn_compare::rows::{self, whole_row, OwnRow};
use jogipahn_compare::second::open as second;
use jogipahn_compare::second::CELL_LIMIT;

const LIMIT: i64 = 1_000_000_000;

/// At least so many questions are put to both.
const QUESTIONS: u64 = 200_000;

#[derive(Clone, Copy, Debug)]
enum Question {
    Count(i64, i64),
    Next(i64),
    Last(i64),
}

fn name(question: Question) -> &'static str {
    match question {
        Question::Count(..) => "count",
        Question::Next(_) => "next",
        Question::Last(_) => "last",
    }
}

/// Puts a question to both.
fn compare(map: &OwnMap, question: Question) -> Result<i64, u32> {
    let (words, period) = (&map.words[..], map.period);
    let (answer, expected) = match question {
        Question::Count(s, t) => (
            core::count_open(words, period, s, t),
            second::count_open(words, period, s, t),
        ),
        Question::Next(x) => (
            core::next_open(words, period, x),
            second::next_open(words, period, x),
        ),
        Question::Last(x) => (
            core::last_open(words, period, x),
            second::last_open(words, period, x),
        ),
    };
    assert_eq!(answer, expected, "{question:?}, period {period}");
    answer
}

/// How the instants of a question lie.
const SORTS: [&str; 5] = ["in range", "s = t", "a turn", "s > t", "outside"];

/// A question of that sort; next and last have no other sort than in range and
/// outside.
fn question(random: &mut Random, sort: &str, period: i64) -> Question {
    let (x, y) = (
        instant_in_range(random, period),
        instant_in_range(random, period),
    );
    let outside = instant_outside(random);
    let (s, t) = (x.min(y), x.max(y));
    match sort {
        "s = t" => Question::Count(x, x),
        "a turn" => {
            let s = x.min(LIMIT - period);
            let turns = random.range(1, ((LIMIT - s) / period).min(3));
            Question::Count(s, s + turns * period)
        }
        "s > t" => Question::Count(t.max(s + 1), s),
        "outside" => match random.below(5) {
            0 => Question::Next(outside),
            1 => Question::Last(outside),
            2 => Question::Count(-outside.saturating_abs(), t),
            3 => Question::Count(s, outside.saturating_abs()),
            _ => Question::Count(outside, instant_outside(random)),
        },
        _ => match random.below(3) {
            0 => Question::Next(x),
            1 => Question::Last(x),
            _ => Question::Count(s, t),
        },
    }
}

/// How an answer lies to the instants asked for.
fn kind_of_answer(map: &OwnMap, question: Question, answer: i64) -> &'static str {
    let turns_away = |x: i64| (answer - x).abs() / map.period;
    match question {
        Question::Count(s, t) if answer == 0 && s < t => "none open",
        Question::Count(s, t) if answer == t - s => "all open",
        Question::Count(s, t) if t - s >= map.period => "over a turn and more",
        Question::Count(..) => "below a turn",
        Question::Next(_) | Question::Last(_) if answer.abs() > LIMIT => "past the range",
        Question::Next(x) if answer == x + 1 => "at once",
        Question::Last(x) if answer == x - 1 => "at once",
        Question::Next(x) | Question::Last(x) if turns_away(x) == 1 => "a whole turn away",
        Question::Next(x) | Question::Last(x) if (answer - x).abs() > 64 => "words away",
        _ => "near",
    }
}

#[test]
fn questions_to_maps_are_answered_alike() {
    let mut counts = Counts::default();
    let (mut asked, mut long, mut around_words) = (0, 0, 0);
    for seed in 0.. {
        if asked >= QUESTIONS {
            break;
        }
        let mut random = Random::new(0x0BE4_0000 + seed);
        let (shape, map) = whole_map(&mut random);
        for _ in 0..8 {
            let sort = if random.percent(60) {
                "in range"
            } else {
                random.choose(&SORTS)
            };
            let question = question(&mut random, sort, map.period);
            let name = name(question);
            let answer = match compare(&map, question) {
                Ok(answer) => kind_of_answer(&map, question, answer).to_owned(),
                Err(number) => format!("refused {number}"),
            };
            let allowed = sort != "s > t" && sort != "outside";
            assert_eq!(answer == "refused 14", !allowed, "{question:?}");
            assert!(answer != "refused 13", "{question:?} {shape}");
            counts.add(format!("{name}, {sort}: {answer}"));
            counts.add(format!("of a map with {shape}"));
            asked += 1;
            long += u64::from(map.period >= 100_000);
            around_words += u64::from((map.period + 2) % 64 <= 4);
        }
    }
    println!("{asked} questions, {long} to long maps, {around_words} around a word's end");
    counts.print();
    assert!(long >= 300 && around_words >= 80_000);
    for shape in SHAPES {
        counts.assert_least(&format!("of a map with {shape}"), 10_000);
    }
    for answer in [
        "none open",
        "all open",
        "over a turn and more",
        "below a turn",
    ] {
        counts.assert_least(&format!("count, in range: {answer}"), 1_000);
    }
    for name in ["next", "last"] {
        for answer in [
            "at once",
            "near",
            "words away",
            "a whole turn away",
            "past the range",
        ] {
            counts.assert_least(&format!("{name}, in range: {answer}"), 500);
        }
        counts.assert_least(&format!("{name}, outside: refused 14"), 2_000);
    }
    counts.assert_least("count, outside: refused 14", 5_000);
    counts.assert_least("count, s > t: refused 14", 5_000);
    counts.assert_least("count, s = t: ", 5_000);
    counts.assert_least("count, a turn: ", 5_000);
}

#[test]
fn what_is_no_map_is_refused() {
    let mut counts = Counts::default();
    for seed in 0..40_000 {
        let mut random = Random::new(0xBAD0_0000 + seed);
        let way = random.choose(&DAMAGES);
        // A map just above the limit is long; some of them are enough.
        if way == "a period just above the limit" && random.percent(90) {
            continue;
        }
        let (_, whole) = whole_map(&mut random);
        let mut map = whole.clone();
        if !damage(&mut map, way, &mut random) {
            continue;
        }
        let sort = random.choose(&SORTS);
        let question = question(&mut random, sort, whole.period);
        // 13 comes before 14.
        assert_eq!(compare(&map, question), Err(13), "{way} {question:?}");
        counts.add(format!("{way}, {}", name(question)));
        counts.add(format!("13 where the question is {sort}"));
    }
    counts.print();
    for way in DAMAGES {
        for name in ["count", "next", "last"] {
            counts.assert_least(&format!("{way}, {name}"), 30);
        }
    }
    for sort in SORTS {
        counts.assert_least(&format!("13 where the question is {sort}"), 3_000);
    }
}

/// Asks both for the map of a row in a list of so many words, dirty before.
fn compare_map(random: &mut Random, row: &OwnRow, length: usize) -> Result<Vec<u64>, u32> {
    let mut words: Vec<u64> = (0..length).map(|_| random.bits()).collect();
    let mut expected = words.clone();
    let answer = core::open_map_into(row.row(), &mut words);
    assert_eq!(answer, second::open_map_into(row.row(), &mut expected));
    assert_eq!(words, expected);
    // All zero after any refusal.
    assert!(answer.is_ok() || words.iter().all(|&word| word == 0));
    answer.map(|()| words)
}

#[test]
fn maps_of_rows() {
    let mut counts = Counts::default();
    for seed in 0..20_000 {
        let mut random = Random::new(0x3A9_0000 + seed);
        let longest = if seed % 1_000 == 0 { CELL_LIMIT } else { 300 };
        let row = whole_row(&mut random, longest);
        let right = second::words_for(row.cells.len());
        let words = compare_map(&mut random, &row, right).expect("a map");
        assert_eq!(core::open_map(row.row()).as_ref(), Ok(&words));
        assert_eq!(second::open_map(row.row()).as_ref(), Ok(&words));
        counts.add("a map");
        for (what, length) in [
            ("a word too few", right - 1),
            ("a word too many", right + 1),
            ("no list", 0),
            ("a word for each cell", row.cells.len()),
        ] {
            if length != right {
                assert_eq!(compare_map(&mut random, &row, length), Err(13));
                counts.add(format!("refused 13: {what}"));
            }
        }
        // The map shows the row's open instants.
        let map = OwnMap {
            words,
            period: row.period,
        };
        for _ in 0..4 {
            let x = instant_in_range(&mut random, row.period);
            let next = compare(&map, Question::Next(x)).expect("an instant");
            let last = compare(&map, Question::Last(x)).expect("an instant");
            assert!(last < x && x < next);
            for t in [last, x, next] {
                let open = row.label(t).is_some();
                assert!(open || t == x, "{t} {row:?}");
                if (-LIMIT..LIMIT).contains(&t) {
                    let count = compare(&map, Question::Count(t, t + 1));
                    assert_eq!(count, Ok(open.into()), "{t} {row:?}");
                }
            }
            // Nothing is open between.
            let (s, t) = ((last + 1).max(-LIMIT), next.min(LIMIT));
            let count = compare(&map, Question::Count(s, t));
            assert_eq!(
                count,
                Ok(row.label(x).is_some() as i64 * i64::from(x < LIMIT))
            );
        }
    }
    counts.print();
    counts.assert_each(5, 10_000);
}

#[test]
fn rows_that_are_not_sound() {
    let mut counts = Counts::default();
    for seed in 0..20_000 {
        let mut random = Random::new(0x3AD_0000 + seed);
        let way = random.below(rows::DAMAGES.len());
        let long = rows::DAMAGES[way] == "period above the limit";
        let mut row = whole_row(&mut random, 300);
        if long && random.percent(90) || !rows::damage(&mut row, way, &mut random) {
            continue;
        }
        for length in [second::words_for(row.cells.len()), random.below(8)] {
            assert_eq!(compare_map(&mut random, &row, length), Err(13), "{row:?}");
        }
        assert_eq!(core::open_map(row.row()), Err(13));
        counts.add(format!("refused 13: {}", rows::DAMAGES[way]));
    }
    counts.print();
    counts.assert_each(rows::DAMAGES.len(), 100);
}

#[test]
fn the_longest_maps_and_the_widest_ranges() {
    let mut random = Random::new(0x10C6);
    for cells in [1, 63, 64, 65, 1 << 20, CELL_LIMIT - 1, CELL_LIMIT] {
        for shape in SHAPES {
            let map = shaped_map(&mut random, shape, cells);
            let count = compare(&map, Question::Count(-LIMIT, LIMIT)).expect("a count");
            if shape == "all bits" {
                assert_eq!(count, 2 * LIMIT);
            }
            for x in [-LIMIT, -1, 0, 1, LIMIT] {
                assert_eq!(compare(&map, Question::Count(x, x)), Ok(0));
                assert!(compare(&map, Question::Next(x)).is_ok());
                assert!(compare(&map, Question::Last(x)).is_ok());
            }
            for x in [-LIMIT - 1, LIMIT + 1] {
                assert_eq!(compare(&map, Question::Next(x)), Err(14));
                assert_eq!(compare(&map, Question::Last(x)), Err(14));
                assert_eq!(compare(&map, Question::Count(x, x)), Err(14));
            }
            assert_eq!(compare(&map, Question::Count(-LIMIT - 1, 0)), Err(14));
            assert_eq!(compare(&map, Question::Count(0, LIMIT + 1)), Err(14));
            assert_eq!(compare(&map, Question::Count(1, 0)), Err(14));
        }
    }
}
