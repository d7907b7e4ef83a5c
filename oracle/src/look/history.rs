// Added to history.rs: its private fields.

impl AckHistoryWindow {
    /// Bytes that an entry takes.
    pub const ENTRY: usize = std::mem::size_of::<AckHistoryEntry>();

    /// Number, ACK number and departure of each entry, oldest first.
    pub fn entries(&self) -> impl DoubleEndedIterator<Item = (SeqNumber, FullAckSeqNumber, Instant)> + '_ {
        self.buffer.iter().map(|e| (e.data_sequence_number, e.ack_sequence_number, e.departure_time))
    }

    pub fn held(&self) -> usize {
        self.buffer.len()
    }

    pub fn last_acked(&self) -> SeqNumber {
        self.last_ack_dsn
    }

    pub fn acknowledged(&self) -> SeqNumber {
        self.largest_ack2_dsn
    }
}
