use std::time::{Duration, Instant};

/// How often everything is measured.
pub const PASSES: usize = 5;

/// The shortest time seen for each item of a measurement, so that other work on the
/// machine counts as little as possible.
pub struct Times {
    shortest: Vec<Duration>,
}

impl Times {
    pub fn of(items: usize) -> Times {
        Times {
            shortest: vec![Duration::MAX; items],
        }
    }

    /// Does the work for an item and keeps its time if it is the shortest yet.
    pub fn measure<R>(&mut self, item: usize, work: impl FnOnce() -> R) -> R {
        let begin = Instant::now();
        let result = work();
        self.shortest[item] = self.shortest[item].min(begin.elapsed());
        result
    }

    /// The mean over the items, in microseconds.
    pub fn mean(&self) -> f64 {
        let sum: Duration = self.shortest.iter().sum();
        sum.as_secs_f64() * 1e6 / self.shortest.len() as f64
    }

    /// The item with the longest time, and that time in microseconds.
    pub fn longest(&self) -> (usize, f64) {
        let times = self.shortest.iter().enumerate();
        let (item, time) = times
            .max_by_key(|(_, time)| **time)
            .expect("there is an item");
        (item, time.as_secs_f64() * 1e6)
    }
}
