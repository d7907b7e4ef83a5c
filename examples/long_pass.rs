//! A station's loop in Rust, tried over a long pass: long_pass [--no-clock]
//!
//! This is the loop to copy. It hands in clock samples, pops until nothing is due, rescues what a late drop discards,
//! asks for ACKs and loss reports, and compares every byte that comes out. docs/COLLECTING.md explains each step.
//! A made-up sender takes the place of the network: 150 minutes, a packet each 100 ms, over two turns of the 32-bit
//! stamp and over the wrap of the sequence number. Packets 50, 150, 250 and so on are lost, and come again 30 ms after
//! the gap is seen, which is in time. Packets 75, 1075, 2075 and so on come again 300 ms after it, which is too late.
//! The figures are written at the end. With --no-clock it makes no clock call: from 35 min 47 s on nothing is
//! recovered. long_pass.c is the same in C, and writes the same.
use pursethistle::*;
use std::io::{self, Write};
use std::{env, process};

// Times are microseconds. Two turns of the stamp take 143 min 10 s.
const LATENCY: u32 = 120_000;
const SPACING: i64 = 100_000;
const TICK: i64 = 10_000;
const SECOND: i64 = 1_000_000;
const PACKETS: u32 = 90_000;
/// The reading that belongs to the sender's stamp 0.
const START: i64 = 1_000_000_000;
/// The first number, so that the number wraps half way.
const FIRST_NUMBER: u32 = (1 << 31) - 45_000;
/// 2^31: 35 min 47 s.
const HALF_TURN: i64 = 1 << 31;
const CAPACITY: usize = 32;

/// The packet with this sequence number.
fn packet_of(number: u32) -> u32 {
    number.wrapping_sub(FIRST_NUMBER) & 0x7fff_ffff
}

/// The bytes of a packet.
fn payload_of(packet: u32) -> String {
    format!("packet {packet}")
}

/// The time of a packet, from the start on.
fn time_of(packet: u32) -> i64 {
    i64::from(packet) * SPACING
}

/// When a packet comes, from the start on: at its time, or sent again after the next one showed the gap.
fn comes(packet: u32) -> i64 {
    match packet {
        p if p % 100 == 50 => time_of(p) + SPACING + 30_000,
        p if p % 1_000 == 75 => time_of(p) + SPACING + 300_000,
        p => time_of(p),
    }
}

/// What has become of the packets.
struct Figures {
    settled: Vec<bool>,
    lost: u32,
    recovered_before: u32,
    recovered_after: u32,
    released: u32,
    early: u32,
    late: u32,
    rescued: u32,
    too_late: u32,
    wrong: u32,
    samples: u32,
    acks: u32,
    reports: u32,
}

impl Figures {
    fn new() -> Figures {
        Figures {
            settled: vec![false; PACKETS as usize],
            lost: 0,
            recovered_before: 0,
            recovered_after: 0,
            released: 0,
            early: 0,
            late: 0,
            rescued: 0,
            too_late: 0,
            wrong: 0,
            samples: 0,
            acks: 0,
            reports: 0,
        }
    }

    /// These bytes came out for this packet. Each packet must come out once, with its own bytes.
    fn keep(&mut self, packet: u32, bytes: &[u8]) {
        match self.settled.get_mut(packet as usize) {
            Some(settled) if !*settled && bytes == payload_of(packet).as_bytes() => *settled = true,
            _ => self.wrong += 1,
        }
    }
}

/// The station.
struct Station {
    receiver: Receiver,
    output: Vec<u8>,
    words: Vec<u32>,
    /// The packet in front.
    next: u32,
    /// The number of the last ACK, until its ACK2 comes.
    unanswered: Option<u32>,
    figures: Figures,
}

impl Station {
    /// Moves the receiver's reference on. The stamp is the station's own time since the start, mod 2^32: no drift.
    fn sample_clock(&mut self, now: i64) -> Result<(), Refusal> {
        self.figures.samples += 1;
        self.receiver.synchronize_clock(now, (now - START) as u32).map(|_| ())
    }

    /// A packet comes. One that is refused as too late is still in the caller's hands, and is kept.
    fn take(&mut self, now: i64, packet: u32) -> Result<(), Refusal> {
        use DataPacketAction::*;
        let payload = payload_of(packet);
        let taken = self.receiver.handle_data_packet(
            now,
            DataPacket {
                number: FIRST_NUMBER.wrapping_add(packet) & 0x7fff_ffff,
                message: packet & 0x3ff_ffff,
                location: FIRST | LAST,
                stamp: time_of(packet) as u32,
                payload: payload.as_bytes(),
            },
        );
        let figures = &mut self.figures;
        let (before, after) = (&mut figures.recovered_before, &mut figures.recovered_after);
        match taken {
            Ok(ReceivedWithLoss { first, last }) => {
                figures.lost += last.wrapping_sub(first).wrapping_add(1) & 0x7fff_ffff;
                figures.reports += 1; // to be sent at once
            }
            Ok(Received { recovered, .. } | ReceivedWithLightAck { recovered, .. }) => {
                *(if time_of(packet) < HALF_TURN { before } else { after }) += u32::from(recovered);
            }
            Err(Refusal::PacketTooLate) => {
                figures.too_late += 1;
                figures.keep(packet, payload.as_bytes());
            }
            Err(refusal) => return Err(refusal),
        }
        Ok(())
    }

    /// Pops until nothing is due, and rescues what a late drop discards.
    fn release(&mut self, now: i64) -> Result<(), Refusal> {
        loop {
            let figures = &mut self.figures;
            match self.receiver.pop_next_message(now, &mut self.output)? {
                MessageAnswer::Nothing => return Ok(()),
                MessageAnswer::Message { payload, packets, .. } => {
                    figures.early += u32::from(now < START + time_of(self.next) + i64::from(LATENCY));
                    figures.keep(self.next, payload);
                    figures.released += 1;
                    self.next += packets as u32;
                }
                MessageAnswer::Late { first, end, .. } => {
                    for (number, payload) in self.receiver.rescued(first, end) {
                        figures.rescued += 1;
                        figures.keep(packet_of(number), payload);
                    }
                    figures.late += 1;
                    self.next = packet_of(end);
                }
            }
        }
    }

    /// Asks for the full ACK, each 10 ms. Its ACK2 comes 10 ms later here.
    fn acknowledge(&mut self, now: i64) -> Result<(), Refusal> {
        if let Some(number) = self.unanswered.take() {
            self.receiver.handle_ack2_packet(now, number)?;
        }
        if let Some(ack) = self.receiver.on_full_ack_event(now)? {
            self.unanswered = Some(ack.number);
            self.figures.acks += 1;
        }
        Ok(())
    }

    /// Asks for the loss report, each 20 ms.
    fn report_losses(&mut self, now: i64) -> Result<(), Refusal> {
        if self.receiver.on_nak_event(now, &mut self.words)?.is_some() {
            self.figures.reports += 1;
        }
        Ok(())
    }

    /// One tick of the loop, so long after the start.
    fn tick(&mut self, time: i64, clock: bool) -> Result<(), Refusal> {
        let now = START + time;
        if clock && time % SECOND == 0 {
            self.sample_clock(now)?; // the first one before the first packet
        }
        let newest = (time / SPACING) as u32;
        for packet in newest.saturating_sub(4)..=newest {
            if packet < PACKETS && comes(packet) == time {
                self.take(now, packet)?;
            }
        }
        self.release(now)?;
        self.acknowledge(now)?;
        if time % (2 * TICK) == 0 {
            self.report_losses(now)?;
        }
        Ok(())
    }
}

fn long_pass(clock: bool) -> Result<Station, Refusal> {
    let asked = Settings { start: START, latency: LATENCY, late_drop: true, first: FIRST_NUMBER, capacity: CAPACITY };
    let mut station = Station {
        receiver: Receiver::new(asked)?,
        output: vec![0; CAPACITY * raw::PAYLOAD_BYTES],
        words: vec![0; CAPACITY],
        next: 0,
        unanswered: None,
        figures: Figures::new(),
    };
    // A second more than the pass, so that all comes out.
    let mut time = 0;
    while time < time_of(PACKETS) + SECOND {
        station.tick(time, clock)?;
        time += TICK;
    }
    Ok(station)
}

fn main() {
    let words: Vec<String> = env::args().skip(1).collect();
    if words.len() > 1 || words.iter().any(|word| word != "--no-clock") {
        eprintln!("usage: long_pass [--no-clock]");
        process::exit(2);
    }
    let station = long_pass(words.is_empty()).unwrap_or_else(|refusal| {
        eprintln!("{refusal}");
        process::exit(1);
    });
    let figures = &station.figures;
    let lines = [
        ("packets", PACKETS),
        ("lost", figures.lost),
        ("recovered_before_half_turn", figures.recovered_before),
        ("recovered_after_half_turn", figures.recovered_after),
        ("released", figures.released),
        ("early", figures.early),
        ("late", figures.late),
        ("rescued", figures.rescued),
        ("too_late", figures.too_late),
        ("missing", figures.settled.iter().filter(|&&settled| !settled).count() as u32),
        ("wrong", figures.wrong),
        ("samples", figures.samples),
        ("adjustments", station.receiver.counters().rx_clock_adjustments as u32),
        ("acks", figures.acks),
        ("reports", figures.reports),
    ];
    let text: String = lines.iter().map(|(name, figure)| format!("{name} {figure}\n")).collect();
    if io::stdout().write_all(text.as_bytes()).is_err() || figures.wrong > 0 {
        process::exit(1);
    }
}
