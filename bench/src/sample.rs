//! Times of repeated runs.
use crate::history::Listed;
use std::time::Duration;

/// One run (or the mean of several short ones).
#[derive(Copy, Clone)]
pub struct Sample {
    pub opening: Duration,
    pub walking: Duration,
    pub listed: Listed,
}

/// The times of one thing, in nanoseconds.
#[derive(Default, Clone)]
pub struct Times(Vec<f64>);

impl Times {
    pub fn add(&mut self, time: Duration) {
        self.0.push(time.as_nanos() as f64);
        self.0.sort_by(f64::total_cmp);
    }

    pub fn is_empty(&self) -> bool {
        self.0.is_empty()
    }

    pub fn all(&self) -> &[f64] {
        &self.0
    }

    pub fn least(&self) -> f64 {
        self.0[0]
    }

    pub fn most(&self) -> f64 {
        self.0[self.0.len() - 1]
    }

    pub fn median(&self) -> f64 {
        let half = self.0.len() / 2;
        if self.0.len() % 2 == 1 { self.0[half] } else { (self.0[half - 1] + self.0[half]) / 2.0 }
    }
}
