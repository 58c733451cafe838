//! The clock, and the times of several rounds.
//!
//! A round is long compared with the clock's resolution, and short compared
//! with the time for which a busy machine lets one process run, so that many
//! rounds are not disturbed.

use std::time::Instant;

/// Who is timed.
#[derive(Clone, Copy)]
pub enum Side {
    Library,
    Second,
}

/// The best and the median of several rounds: times of one call in
/// microseconds, rates or ratios.
#[derive(Clone, Copy)]
pub struct Times {
    pub best: f64,
    pub median: f64,
}

/// Times of both sides, and the ratio of the library's to the second
/// implementation's.
#[derive(Clone, Copy)]
pub struct Pair {
    pub library: Times,
    pub second: Times,
    pub ratio: Times,
}

/// Times of one call by either side, round by round.
#[derive(Default)]
pub struct Rounds {
    library: Vec<f64>,
    second: Vec<f64>,
}

impl Times {
    fn of(rounds: &[f64]) -> Self {
        let mut sorted = rounds.to_vec();
        sorted.sort_unstable_by(f64::total_cmp);
        Times {
            best: sorted[0],
            median: sorted[sorted.len() / 2],
        }
    }

    /// The ratio of the best times, and the median of the ratios of each
    /// round, in which a busy machine slows both sides.
    fn ratio(over: &[f64], under: &[f64]) -> Self {
        let each: Vec<f64> = over.iter().zip(under).map(|(a, b)| a / b).collect();
        Times {
            best: Times::of(over).best / Times::of(under).best,
            median: Times::of(&each).median,
        }
    }

    /// How much is done per microsecond, that is, millions per second, where
    /// these are the times for `amount`.
    pub fn rate(self, amount: f64) -> Self {
        Times {
            best: amount / self.best,
            median: amount / self.median,
        }
    }

    pub fn scaled(self, factor: f64) -> Self {
        Times {
            best: self.best * factor,
            median: self.median * factor,
        }
    }
}

impl Rounds {
    /// Takes another round. The side that begins changes, so that neither
    /// always finds the caches as the other left them.
    pub fn push(&mut self, mut timed: impl FnMut(Side) -> f64) {
        let mut order = [Side::Library, Side::Second];
        if self.library.len() % 2 == 1 {
            order.reverse();
        }
        for side in order {
            let time = timed(side);
            match side {
                Side::Library => self.library.push(time),
                Side::Second => self.second.push(time),
            }
        }
    }

    /// Takes `count` rounds of calls that take the library about `length`
    /// microseconds, which is long compared with the clock's resolution.
    pub fn take(count: usize, length: f64, mut timed: impl FnMut(Side, usize) -> f64) -> Self {
        let calls = calls_in(length, || timed(Side::Library, 1));
        let mut rounds = Rounds::default();
        for _ in 0..count {
            rounds.push(|side| timed(side, calls));
        }
        rounds
    }

    pub fn pair(&self) -> Pair {
        Pair {
            library: Times::of(&self.library),
            second: Times::of(&self.second),
            ratio: Times::ratio(&self.library, &self.second),
        }
    }

    /// The ratio of the library's times to these, taken in the same rounds.
    pub fn library_against(&self, other: &[f64]) -> Times {
        Times::ratio(&self.library, other)
    }
}

/// How many calls make a round of this length, judging by the fastest of some.
pub fn calls_in(length: f64, mut once: impl FnMut() -> f64) -> usize {
    const TRIED: usize = 5;
    let best = (0..TRIED).map(|_| once()).fold(length, f64::min);
    (length / best).ceil() as usize
}

/// Microseconds of one call in a round of `calls` calls.
pub fn time(calls: usize, mut call: impl FnMut()) -> f64 {
    let start = Instant::now();
    for _ in 0..calls {
        call();
    }
    start.elapsed().as_secs_f64() * 1e6 / calls as f64
}

#[cfg(test)]
mod tests {
    use super::*;

    #[test]
    fn the_side_that_begins_changes() {
        let mut order = Vec::new();
        let mut rounds = Rounds::default();
        for _ in 0..2 {
            rounds.push(|side| {
                order.push(matches!(side, Side::Library));
                1.0
            });
        }
        assert_eq!(order, [true, false, false, true]);
    }

    #[test]
    fn ratios_are_of_the_best_and_of_each_round() {
        // The second round was slow for both sides.
        let rounds = Rounds {
            library: vec![2.0, 30.0, 4.0],
            second: vec![2.0, 10.0, 1.0],
        };
        let ratio = rounds.pair().ratio;
        assert_eq!((ratio.best, ratio.median), (2.0, 3.0));
    }
}
