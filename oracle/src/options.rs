// Stand-in for the option that the receiver takes: a count of packets.
#[derive(Copy, Clone, Debug)]
pub struct PacketCount(pub u64);

impl From<PacketCount> for usize {
    fn from(count: PacketCount) -> usize {
        count.0 as usize
    }
}
