// Added to receiver/time.rs: its private fields, and a way to put another time base in (the switches drift-sign and drift-sums).

impl ClockAdjustment {
    pub fn parts(&self) -> (i32, i32) {
        (self.mean.as_micros(), self.stddev.as_micros())
    }
}

impl SynchronizedRemoteClock {
    pub fn base(&self) -> TimeBase {
        self.time_base
    }

    pub fn put_base(&mut self, base: TimeBase) {
        self.time_base = base;
    }

    pub fn last_released(&self) -> Option<Instant> {
        self.last_monotonic_instant
    }

    /// No samples before the first drift.
    pub fn samples(&self) -> Option<usize> {
        self.stats.as_ref().map(|s| s.len())
    }
}
