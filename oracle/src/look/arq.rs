// Added to arq.rs: its private fields, and 01's rule for the link figure (the switch link-figure).

impl AutomaticRepeatRequestAlgorithm {
    pub fn window(&self) -> &ReceiveBuffer {
        &self.receive_buffer
    }

    pub fn window_mut(&mut self) -> &mut ReceiveBuffer {
        &mut self.receive_buffer
    }

    /// Bytes that an entry takes in the window and in the history.
    pub fn entry_sizes(&self) -> (usize, usize) {
        (ReceiveBuffer::ENTRY, AckHistoryWindow::ENTRY)
    }

    pub fn history(&self) -> &AckHistoryWindow {
        &self.ack_history_window
    }

    pub fn round_trip(&self) -> Rtt {
        self.rtt
    }

    pub fn last_arrival(&self) -> Option<Instant> {
        self.arrival_speed.last_arrival_time
    }

    pub fn probe(&self) -> Option<Instant> {
        self.link_capacity_estimate.probe_time
    }

    /// Interval and size of each arrival, and each pair's interval, oldest first.
    pub fn arrivals(&self) -> Vec<(i32, u64)> {
        self.arrival_speed.packet_history_window.iter().map(|(t, size)| (t.as_micros(), *size)).collect()
    }

    pub fn pairs(&self) -> Vec<i32> {
        self.link_capacity_estimate.packet_pair_window.iter().map(|t| t.as_micros()).collect()
    }

    /// 01: "Newest 16 likewise, median index 7, 1,000,000 / median truncated; 0 gives 4,294,967,295."
    pub fn link_by_01(&self) -> Option<u32> {
        let mut pairs: Vec<i32> = self.link_capacity_estimate.packet_pair_window.iter().map(|t| t.as_micros()).collect();
        if pairs.len() < 16 {
            return None;
        }
        pairs.sort_unstable();
        Some(if pairs[7] == 0 { u32::MAX } else { (1_000_000 / pairs[7]) as u32 })
    }
}
