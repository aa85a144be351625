//! Measuring how long several sides take.

use std::time::{Duration, Instant};

/// How long a case is measured at the least, and in how many rounds.
const LEAST_TIME: Duration = Duration::from_millis(700);
const LEAST_ROUNDS: usize = 15;

/// The times of several sides in seconds for one run, round by round.
pub struct Rounds(Vec<Vec<f64>>);

impl Rounds {
    /// The best time of a side.
    pub fn best(&self, side: usize) -> f64 {
        self.0
            .iter()
            .map(|times| times[side])
            .fold(f64::INFINITY, f64::min)
    }

    /// How many times as long as another one a side takes: the median over the
    /// rounds, so that a machine whose speed changes from time to time tells
    /// the same.
    pub fn ratio(&self, side: usize, other: usize) -> f64 {
        let mut ratios: Vec<f64> = self
            .0
            .iter()
            .map(|times| times[side] / times[other])
            .collect();
        ratios.sort_by(f64::total_cmp);
        ratios[ratios.len() / 2]
    }
}

/// Measures the sides in turn, each once a round and right after a run that
/// isn't measured. Where possible the time counts that this thread has had a
/// processor. Short runs are repeated within a measurement until it takes about
/// a millisecond.
pub fn take_turns(sides: &mut [&mut dyn FnMut()]) -> Rounds {
    let times: Vec<usize> = sides.iter_mut().map(|run| inner_repetitions(run)).collect();
    let begin = Instant::now();
    let mut rounds = Vec::new();
    while rounds.len() < LEAST_ROUNDS || begin.elapsed() < LEAST_TIME * sides.len() as u32 / 2 {
        let round = sides.iter_mut().zip(&times).map(|(run, &times)| {
            run();
            seconds(run, times)
        });
        rounds.push(round.collect());
    }
    Rounds(rounds)
}

/// Has freed memory kept for the next run, so that a side that allocates isn't
/// charged each time for getting its pages anew.
pub fn keep_memory() {
    #[cfg(all(target_os = "linux", target_env = "gnu"))]
    {
        const TRIM_THRESHOLD: i32 = -1;
        const MMAP_THRESHOLD: i32 = -3;

        extern "C" {
            fn mallopt(parameter: i32, value: i32) -> i32;
        }

        // SAFETY: these set numbers of the allocator, before any other thread
        // is there.
        let kept = unsafe { mallopt(TRIM_THRESHOLD, 1 << 30) & mallopt(MMAP_THRESHOLD, 1 << 25) };
        assert_eq!(kept, 1, "the allocator can't be told to keep memory");
    }
}

fn inner_repetitions(run: &mut dyn FnMut()) -> usize {
    let once = seconds(run, 1).min(seconds(run, 1));
    (1e-3 / once.max(1e-9)).ceil().clamp(1.0, 1e6) as usize
}

fn seconds(run: &mut dyn FnMut(), times: usize) -> f64 {
    let begin = clock::now();
    for _ in 0..times {
        run();
    }
    (clock::now() - begin) / times as f64
}

#[cfg(all(target_os = "linux", target_pointer_width = "64"))]
mod clock {
    #[repr(C)]
    struct Timespec {
        seconds: i64,
        nanoseconds: i64,
    }

    const THREAD_CPUTIME: i32 = 3;

    extern "C" {
        fn clock_gettime(clock: i32, time: *mut Timespec) -> i32;
    }

    pub fn now() -> f64 {
        let mut time = Timespec {
            seconds: 0,
            nanoseconds: 0,
        };
        // SAFETY: the time is written to a number of this function.
        let answer = unsafe { clock_gettime(THREAD_CPUTIME, &mut time) };
        assert_eq!(answer, 0, "there is no clock of the thread's own time");
        time.seconds as f64 + time.nanoseconds as f64 * 1e-9
    }
}

#[cfg(not(all(target_os = "linux", target_pointer_width = "64")))]
mod clock {
    use std::sync::OnceLock;
    use std::time::Instant;

    pub fn now() -> f64 {
        static BEGIN: OnceLock<Instant> = OnceLock::new();
        BEGIN.get_or_init(Instant::now).elapsed().as_secs_f64()
    }
}

/// Seconds in a unit that reads well.
pub fn readable(seconds: f64) -> String {
    if seconds < 1e-6 {
        format!("{:.1} ns", seconds * 1e9)
    } else if seconds < 1e-3 {
        format!("{:.2} µs", seconds * 1e6)
    } else {
        format!("{:.2} ms", seconds * 1e3)
    }
}
