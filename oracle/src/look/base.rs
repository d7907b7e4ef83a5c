// Added to base.rs: the reference point, and 01's rule for adjusting, for the one drift whose sign the Rust cannot turn (the switch
// drift-sign).

impl TimeBase {
    pub fn reference(&self) -> (Instant, TimeStamp) {
        (self.reference_time, self.reference_ts)
    }

    /// 01: "Adjusting subtracts the drift from the reference time; if `now` is then after it, time and stamp both move to `now`."
    pub fn adjusted_by_01(mut self, now: Instant, drift: TimeSpan) -> Self {
        let micros = i64::from(drift.as_micros());
        let size = std::time::Duration::from_micros(micros.unsigned_abs());
        self.reference_time =
            if micros > 0 { self.reference_time.checked_sub(size).unwrap() } else { self.reference_time + size };
        if now > self.reference_time {
            let delta = now - self.reference_time;
            self.reference_time = now;
            self.reference_ts = self.reference_ts + delta;
        }
        self
    }
}
