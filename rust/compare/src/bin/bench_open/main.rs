//! How long it takes to count open instants, to find them and to go so many
//! steps: the proved core over a map's words, hand-written Rust over the same
//! words, and ordinary Rust over the row's cells or by single steps.

mod cells;
mod words;

use std::hint::black_box;

use jogipahn::OpenMap;
use jogipahn_compare::core;
use jogipahn_compare::random::Random;
use jogipahn_compare::second::open as second;
use jogipahn_compare::second::questions::Row;
use jogipahn_compare::second::EMPTY;
use jogipahn_compare::timing::{keep_memory, readable, take_turns, Rounds};

/// So many questions are put in a run.
const QUESTIONS: usize = 32;

/// Two numbers of a question.
type Asked = Vec<(i64, i64)>;

/// One of the three ways to answer.
type Way<'a> = Box<dyn Fn(i64, i64) -> i64 + 'a>;

fn report(name: &str, sides: [&str; 3], rounds: &Rounds, questions: usize) {
    let time = |side| readable(rounds.best(side) / questions as f64);
    println!(
        "  {name:<36} {} {:>9}   {} {:>9}   {} {:>9}   {}/{} {:>5.2}   {}/{} {:>8.2}",
        sides[0],
        time(0),
        sides[1],
        time(1),
        sides[2],
        time(2),
        sides[0],
        sides[1],
        rounds.ratio(0, 1),
        sides[2],
        sides[0],
        rounds.ratio(2, 0),
    );
}

/// Times the core, words and a third way over the same questions.
fn measure(name: &str, third: &str, ways: [Way; 3], asked: &Asked) {
    for &(a, b) in asked {
        let answers = [0, 1, 2].map(|way: usize| ways[way](a, b));
        assert_eq!(answers, [answers[0]; 3], "{name} {a} {b}");
    }
    let run = |way: &Way| {
        for &(a, b) in asked {
            black_box(way(black_box(a), black_box(b)));
        }
    };
    let rounds = take_turns(
        &mut [&mut || run(&ways[0]), &mut || run(&ways[1]), &mut || {
            run(&ways[2])
        }],
    );
    report(name, ["core", "words", third], &rounds, asked.len());
}

/// A row, and its map.
struct Subject {
    cells: Vec<i32>,
    map: OpenMap,
}

impl Subject {
    /// A row of so many cells whose open ones are slots of their own.
    fn new(length: usize, is_open: impl Fn(usize) -> bool) -> Self {
        let mut slots = 0;
        let cells = (0..length).map(|cell| {
            slots += i32::from(is_open(cell));
            if is_open(cell) {
                slots
            } else {
                EMPTY
            }
        });
        let cells: Vec<i32> = cells.collect();
        let row = Self::row(&cells);
        let map = core::reader(row).open_map().expect("a sound row");
        assert_eq!(Ok(map.words()), second::open_map(row).as_deref());
        Subject { cells, map }
    }

    fn row(cells: &[i32]) -> Row<'_> {
        Row {
            cells,
            period: cells.len() as i64,
            distance: cells.iter().filter(|&&cell| cell != EMPTY).count() as i64,
        }
    }

    fn period(&self) -> i64 {
        self.cells.len() as i64
    }

    fn words(&self) -> words::Map<'_> {
        words::Map {
            words: self.map.words(),
            period: self.period(),
        }
    }

    fn counting(&self) -> [Way<'_>; 3] {
        let words = self.words();
        [
            Box::new(move |s, t| self.map.count(s..t).unwrap()),
            Box::new(move |s, t| words.count(s, t).unwrap()),
            Box::new(move |s, t| cells::count(&self.cells, s, t)),
        ]
    }

    fn next(&self) -> [Way<'_>; 3] {
        let words = self.words();
        [
            Box::new(move |x, _| self.map.next(x).unwrap()),
            Box::new(move |x, _| words.next(x).unwrap()),
            Box::new(move |x, _| cells::next(&self.cells, x)),
        ]
    }

    fn last(&self) -> [Way<'_>; 3] {
        let words = self.words();
        [
            Box::new(move |x, _| self.map.last(x).unwrap()),
            Box::new(move |x, _| words.last(x).unwrap()),
            Box::new(move |x, _| cells::last(&self.cells, x)),
        ]
    }

    /// The third way takes one step after the other, over the words too.
    fn steps(&self) -> [Way<'_>; 3] {
        let words = self.words();
        [
            Box::new(move |x, n| self.map.nth(x, n).unwrap().unwrap()),
            Box::new(move |x, n| words.nth(x, n).unwrap().unwrap()),
            Box::new(move |x, n| words.nth_by_steps(x, n).unwrap().unwrap()),
        ]
    }

    fn between(&self) -> [Way<'_>; 3] {
        let words = self.words();
        [
            Box::new(move |x, y| self.map.between(x, y).unwrap()),
            Box::new(move |x, y| words.between(x, y).unwrap()),
            Box::new(move |x, y| -cells::count(&self.cells, y + 1, x + 1)),
        ]
    }

    /// So many steps or some more, forward and backward.
    fn walks(&self, random: &mut Random, least: i64, most: i64, questions: usize) -> Asked {
        let walk = |_| {
            let x = random.range(-100 * self.period(), 100 * self.period());
            (x, random.choose(&[-1, 1]) * random.range(least, most))
        };
        (0..questions).map(walk).collect()
    }

    /// Stretches of so many instants inside a turn.
    fn inside(&self, random: &mut Random, least: i64, most: i64) -> Asked {
        let stretch = |_| {
            let length = random.range(least, most);
            let first = random.range(0, self.period() - length);
            let s = self.period() * random.range(-100, 100) + first;
            (s, s + length)
        };
        (0..QUESTIONS).map(stretch).collect()
    }

    /// Stretches over many turns.
    fn over_many(&self, random: &mut Random) -> Asked {
        let stretch = |_| {
            let length = random.range(500_000_000, 1_900_000_000);
            let s = random.range(-1_000_000_000, 1_000_000_000 - length);
            (s, s + length)
        };
        (0..QUESTIONS).map(stretch).collect()
    }
}

fn count_and_find(subject: &Subject, random: &mut Random) {
    let half = subject.period() / 2;
    let near = subject.inside(random, 1, 100);
    let part = subject.inside(random, half, half + half / 2);
    let many = subject.over_many(random);
    for (name, asked) in [
        ("count, up to 100 instants", &near),
        ("count, over half of a turn", &part),
        ("count, over many turns", &many),
    ] {
        measure(name, "cells", subject.counting(), asked);
    }
    measure("next", "cells", subject.next(), &many);
    measure("last", "cells", subject.last(), &many);
}

fn go_steps(subject: &Subject, random: &mut Random) {
    for (name, least, most, questions) in [
        ("n-th, n up to 20", 1, 20, QUESTIONS),
        ("n-th, n about 1,000", 900, 1_100, QUESTIONS),
        ("n-th, n about 100,000", 90_000, 110_000, 4),
    ] {
        let walks = subject.walks(random, least, most, questions);
        measure(name, "steps", subject.steps(), &walks);
    }
    let many = subject.over_many(random);
    let down = many.iter().map(|&(s, t)| (t - 1, s)).collect();
    measure(
        "between, down over many turns",
        "cells",
        subject.between(),
        &down,
    );
}

fn main() {
    keep_memory();
    println!("Best times of a question in many rounds taken in turns, and medians of the ratios in each.");
    println!("words: hand-written Rust over the map's words and their ones. cells: ordinary Rust over the row, cell by cell.");
    println!("steps: n single steps over the words.");
    for length in [4096, 1 << 17, 1 << 20] {
        let mut random = Random::new(length as u64);
        for (shape, subject) in [
            ("5 of 7 open", Subject::new(length, |cell| cell % 7 < 5)),
            (
                "20 open at the end",
                Subject::new(length, |cell| cell + 20 >= length),
            ),
        ] {
            println!("\n{length} cells, {shape}");
            count_and_find(&subject, &mut random);
            go_steps(&subject, &mut random);
        }
    }
}
