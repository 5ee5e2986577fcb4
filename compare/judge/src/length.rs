//! How long a comparison goes on: for a time, or for so many traces.

use std::time::{Duration, Instant};

pub struct Length {
    begin: Instant,
    time: Duration,
    traces: Option<u64>,
}

impl Length {
    /// From now on; the time does not count where a number of traces is given.
    pub fn new(time: Duration, traces: Option<u64>) -> Self {
        Length { begin: Instant::now(), time, traces }
    }

    /// Is there one trace more to run after so many?
    pub fn more(&self, traces: u64) -> bool {
        self.traces.map_or_else(|| self.begin.elapsed() < self.time, |most| traces < most)
    }
}
