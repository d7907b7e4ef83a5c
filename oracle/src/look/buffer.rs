// Added to buffer.rs: its private fields.

#[derive(Copy, Clone)]
pub enum Seen {
    Lost { k: i32, feedback: Instant },
    Received { time: Instant },
    GivenUp,
}

impl ReceiveBuffer {
    /// Bytes that an entry takes in the window, without its payload.
    pub const ENTRY: usize = std::mem::size_of::<BufferPacket>();

    pub fn held(&self) -> usize {
        self.buffer.len()
    }

    pub fn front_number(&self) -> SeqNumber {
        self.seqno0
    }

    pub fn next_number(&self) -> SeqNumber {
        self.next_packet_dsn()
    }

    pub fn entries(&self) -> impl Iterator<Item = Seen> + '_ {
        self.buffer.iter().map(|p| match p {
            BufferPacket::Lost(lost) => Seen::Lost { k: lost.k, feedback: lost.feedback_time },
            BufferPacket::Received(data) => Seen::Received { time: self.remote_clock.instant_from(data.timestamp) },
            BufferPacket::Dropped(_) => Seen::GivenUp,
        })
    }

    /// The packet of an entry that is received.
    pub fn packet(&self, index: usize) -> Option<&DataPacket> {
        self.buffer.get(index)?.data_packet()
    }

    pub fn drop_indices(&self, range: Range<SeqNumber>) -> (usize, usize) {
        (self.clamped_index_for_seqno(range.start), self.clamped_index_for_seqno(range.end))
    }

    pub fn clock(&self) -> &SynchronizedRemoteClock {
        &self.remote_clock
    }

    pub fn clock_mut(&mut self) -> &mut SynchronizedRemoteClock {
        &mut self.remote_clock
    }
}
