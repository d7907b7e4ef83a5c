// Stand-in for the settings that a receiver is made from.
use std::time::{Duration, Instant};

use crate::{options::PacketCount, packet::SeqNumber};

pub struct ConnectionSettings {
    pub socket_start_time: Instant,
    pub recv_tsbpd_latency: Duration,
    pub too_late_packet_drop: bool,
    pub init_seq_num: SeqNumber,
    pub recv_buffer_size: PacketCount,
    pub cipher: (),
}
