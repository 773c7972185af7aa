//! How long an operation takes: the best and the median of batches.

use std::hint::black_box;
use std::time::{Duration, Instant};

/// How much is timed. Batches are short, so that many of them run undisturbed also on a busy machine.
#[derive(Clone, Copy)]
pub struct Effort {
    /// How long a batch takes, at least.
    pub batch: Duration,
    /// How long all batches take together, about.
    pub all: Duration,
    /// How many batches there are, at least, however long they take.
    pub least: u32,
}

/// How many rounds two operations take turns in.
const ROUNDS: u32 = 10;

impl Effort {
    /// For figures to be kept.
    pub const FULL: Effort = Effort {
        batch: Duration::from_millis(2),
        all: Duration::from_millis(200),
        least: 3,
    };
    /// For a look whether everything works; the figures say little.
    pub const QUICK: Effort = Effort {
        batch: Duration::from_micros(20),
        all: Duration::from_micros(60),
        least: 1,
    };

    /// The times of two operations that take turns in rounds, so that a machine which is slow for a while is slow for both.
    pub fn in_turns(
        self,
        mut first: impl FnMut(Effort) -> Time,
        mut second: impl FnMut(Effort) -> Time,
    ) -> [Time; 2] {
        let part = Effort {
            all: self.all / ROUNDS,
            ..self
        };
        let rounds: Vec<[Time; 2]> = (0..ROUNDS).map(|_| [first(part), second(part)]).collect();
        [0, 1].map(|which| Time::of_rounds(rounds.iter().map(|round| round[which])))
    }

    /// The time of an operation that may be repeated as it is.
    pub fn time<T>(self, mut operation: impl FnMut() -> T) -> Time {
        self.best_and_median(|count| {
            let start = Instant::now();
            for _ in 0..count {
                black_box(operation());
            }
            start.elapsed()
        })
    }

    /// The time of an operation between two steps that are not timed, `before` and `after` it.
    ///
    /// Each operation is timed by itself, so that the time has that of reading the clock in it.
    pub fn time_between<S>(
        self,
        state: &mut S,
        before: impl Fn(&mut S),
        operation: impl Fn(&mut S),
        after: impl Fn(&mut S),
    ) -> Time {
        self.best_and_median(|count| {
            let mut sum = Duration::ZERO;
            for _ in 0..count {
                before(state);
                let start = Instant::now();
                operation(black_box(state));
                sum += start.elapsed();
                after(state);
            }
            sum
        })
    }

    /// Finds how many operations make a batch, and times batches of so many.
    fn best_and_median(self, mut batch: impl FnMut(u32) -> Duration) -> Time {
        let mut count = 1;
        let mut last = batch(count);
        while last < self.batch {
            count *= 2;
            last = batch(count);
        }
        let fitting = self.all.as_nanos() / last.as_nanos().max(1);
        let batches = fitting.max(u128::from(self.least));
        let mut all = vec![last];
        all.extend((1..batches).map(|_| batch(count)));
        Time::of_batches(&mut all, count)
    }
}

/// Nanoseconds of one operation.
#[derive(Clone, Copy)]
pub struct Time {
    /// In the best batch.
    pub best: f64,
    /// In the median batch.
    pub median: f64,
}

impl Time {
    fn of_batches(batches: &mut [Duration], count: u32) -> Time {
        batches.sort_unstable();
        let each = |batch: Duration| batch.as_nanos() as f64 / f64::from(count);
        Time {
            best: each(batches[0]),
            median: each(batches[batches.len() / 2]),
        }
    }

    /// The best of some rounds, and the median of their medians.
    fn of_rounds(rounds: impl Iterator<Item = Time>) -> Time {
        let (best, mut medians): (Vec<f64>, Vec<f64>) =
            rounds.map(|time| (time.best, time.median)).unzip();
        medians.sort_unstable_by(f64::total_cmp);
        Time {
            best: best.into_iter().fold(f64::INFINITY, f64::min),
            median: medians[medians.len() / 2],
        }
    }

    /// The median in terms of the best: 1 where nothing disturbed.
    pub fn spread(self) -> f64 {
        self.median / self.best
    }
}

/// The largest spread of some times.
pub fn largest_spread(times: &[Time]) -> f64 {
    times.iter().copied().map(Time::spread).fold(1.0, f64::max)
}

/// What reading the clock takes: the time between two readings.
pub fn clock(effort: Effort) -> Time {
    effort.time_between(&mut (), |_| {}, |_| {}, |_| {})
}

#[cfg(test)]
mod tests {
    use super::*;

    #[test]
    fn best_and_median_of_three_batches() {
        let mut batches = [30, 10, 20].map(Duration::from_nanos);
        let time = Time::of_batches(&mut batches, 10);
        assert_eq!((time.best, time.median, time.spread()), (1.0, 2.0, 2.0));
    }

    #[test]
    fn the_best_round_counts_and_the_median_one() {
        let times = [3.0, 1.0, 2.0].map(|best| Time {
            best,
            median: 10.0 * best,
        });
        let time = Time::of_rounds(times.into_iter());
        assert_eq!((time.best, time.median), (1.0, 20.0));
    }

    #[test]
    fn two_operations_take_turns() {
        let turns = std::cell::RefCell::new(String::new());
        let timed = |name| {
            turns.borrow_mut().push(name);
            Effort::QUICK.time(|| ())
        };
        Effort::QUICK.in_turns(|_| timed('a'), |_| timed('b'));
        assert_eq!(turns.into_inner(), "ab".repeat(ROUNDS as usize));
    }

    #[test]
    fn the_steps_around_an_operation_are_made_as_often_as_it() {
        let mut counts = [0; 3];
        Effort::QUICK.time_between(
            &mut counts,
            |counts| counts[0] += 1,
            |counts| counts[1] += 1,
            |counts| counts[2] += 1,
        );
        assert!(counts[0] > 1);
        assert_eq!(counts, [counts[0]; 3]);
    }
}
