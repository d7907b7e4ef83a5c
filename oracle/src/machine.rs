// The driver: one record at a time through the Rust, each answer as 01's line, the switches that put 01's rule in, and the tests of
// 01's "Rust domain". Two receivers get the same calls: one is asked directly and gives the answers; the other is called through
// receiver/mod.rs and gives the counters.
use std::{
    cell::Cell,
    panic::{catch_unwind, AssertUnwindSafe},
    time::{Duration, Instant},
};

use bytes::Bytes;
use stats::OnlineStats;

use crate::{
    connection::ConnectionSettings,
    options::PacketCount,
    packet::*,
    protocol::{
        output::Output,
        receiver::{DataPacketAction, DataPacketError, Receiver, ReceiverContext, Seen},
        time::Timers,
    },
    statistics::SocketStatistics,
    trace::{self, Header, Record, READING},
};

/// Each is on by default and puts 01's rule in; the numbers are entries of DIFFERENCES.md.
#[derive(Copy, Clone)]
pub struct Switches {
    pub drift_sign: bool,   // 1: the drift is subtracted
    pub drift_sums: bool,   // 2 and 12: a running sum of squares, and the whole root
    pub link_figure: bool,  // 3: whole division
    pub unsteady: bool,     // 8: the answer unsteady
    pub packet_count: bool, // 14: a message's packet count
    pub refusals: bool,     // 13: refusals 3, 4 and 5, and the Rust is not called
}

impl Switches {
    pub const NAMES: [&'static str; 6] = ["drift-sign", "drift-sums", "link-figure", "unsteady", "packet-count", "refusals"];

    pub fn all() -> Self {
        Self { drift_sign: true, drift_sums: true, link_figure: true, unsteady: true, packet_count: true, refusals: true }
    }

    pub fn by_name(&mut self, name: &str) -> Option<&mut bool> {
        Some(match name {
            "drift-sign" => &mut self.drift_sign,
            "drift-sums" => &mut self.drift_sums,
            "link-figure" => &mut self.link_figure,
            "unsteady" => &mut self.unsteady,
            "packet-count" => &mut self.packet_count,
            "refusals" => &mut self.refusals,
            _ => return None,
        })
    }
}

/// How often a switch was asked, and how often it changed what the Rust had.
#[derive(Copy, Clone, Default)]
pub struct Acts {
    pub drift_sign: [u64; 2],
    pub drift_sums: [u64; 2],
    pub link_figure: [u64; 2],
    pub unsteady: u64,
    pub refusals: u64,
}

impl Acts {
    pub fn add(&mut self, o: &Acts) {
        for (mine, other) in
            [(&mut self.drift_sign, o.drift_sign), (&mut self.drift_sums, o.drift_sums), (&mut self.link_figure, o.link_figure)]
        {
            mine[0] += other[0];
            mine[1] += other[1];
        }
        self.unsteady += o.unsteady;
        self.refusals += o.refusals;
    }

    pub fn line(&self) -> String {
        format!(
            "switches: drift-sign changed {} of {} adjustments, drift-sums {} of {} thousands, link-figure {} of {} figures, \
             unsteady {} answers, refusals {} records",
            self.drift_sign[1],
            self.drift_sign[0],
            self.drift_sums[1],
            self.drift_sums[0],
            self.link_figure[1],
            self.link_figure[0],
            self.unsteady,
            self.refusals
        )
    }
}

/// 01: "d = x - mean; mean += d / n; q += d × (x - mean)", and what is taken from them at 1,000.
#[derive(Default)]
struct Sums {
    n: u32,
    mean: f64,
    q: f64,
}

impl Sums {
    fn add(&mut self, x: i32) {
        let x = f64::from(x);
        self.n += 1;
        let d = x - self.mean;
        self.mean += d / f64::from(self.n);
        self.q += d * (x - self.mean);
    }

    fn variance(&self) -> f64 {
        self.q / f64::from(self.n)
    }

    fn deviation(&self) -> i32 {
        let v = self.variance();
        if v.is_nan() || v < 0.0 {
            return 0;
        }
        let whole = v as u128;
        let mut root = (v.sqrt() as u128).saturating_add(2);
        while root * root > whole {
            root -= 1;
        }
        root.min(2_147_483_647) as i32
    }
}

/// Where a receiver stands, as plain numbers: all that 01's head holds, but for the places in its rings.
#[derive(Debug, PartialEq)]
pub struct Stand {
    pub latest: i64,
    pub held: usize,
    pub front: u32,
    pub lrsn: u32,
    pub reference: (i64, u32),
    pub released: Option<i64>,
    pub seen: bool,
    /// The bits of mean and squares, and the count.
    pub sums: (u64, u64, u32),
    pub rtt: (i64, i64),
    pub arrivals: Vec<(i64, u64)>,
    pub arrival: Option<i64>,
    pub pairs: Vec<i64>,
    pub probe: Option<i64>,
    /// Data number, ACK number and departure.
    pub acks: Vec<(u32, u32, i64)>,
    pub acknowledged: u32,
    pub last_acked: u32,
}

/// An entry of the window, with the packet of a received one.
pub enum Entry<'a> {
    Lost { k: i32, feedback: i64 },
    Received(&'a DataPacket),
    GivenUp,
}

pub struct Machine {
    zero: Instant,
    header: Header,
    switches: Switches,
    pub acts: Acts,
    answering: Receiver,
    counting: Receiver,
    statistics: SocketStatistics,
    sums: Sums,
    shadow: OnlineStats,
    pub latest: i64,
    pub records: u64,
    /// The record at which the domain was left, and why.
    pub left: Option<(u64, String)>,
    pub panicked: bool,
    /// The bytes of the last message, and v of the last thousand samples: a line has neither.
    pub message: Bytes,
    pub variance: f64,
}

thread_local! {
    static CALLING: Cell<bool> = const { Cell::new(false) };
}

/// A panic while the Rust is called is an answer, and is not printed; for the start of `main`.
pub fn hush_calls() {
    let loud = std::panic::take_hook();
    std::panic::set_hook(Box::new(move |info| {
        if !CALLING.with(|c| c.get()) {
            loud(info)
        }
    }));
}

const LONGEST: i64 = i32::MAX as i64;

impl Machine {
    pub fn new(header: Header, switches: Switches) -> Self {
        let zero = Instant::now();
        let make = || {
            Receiver::new(ConnectionSettings {
                socket_start_time: zero + Duration::from_micros(header.start),
                recv_tsbpd_latency: Duration::from_micros(u64::from(header.latency)),
                too_late_packet_drop: header.dropping == 1,
                init_seq_num: SeqNumber(header.first),
                recv_buffer_size: PacketCount(u64::from(header.capacity)),
                cipher: (),
            })
        };
        Self {
            zero,
            header,
            switches,
            acts: Acts::default(),
            answering: make(),
            counting: make(),
            statistics: SocketStatistics::default(),
            sums: Sums::default(),
            shadow: OnlineStats::new(),
            latest: header.start as i64,
            records: 0,
            left: None,
            panicked: false,
            message: Bytes::new(),
            variance: 0.0,
        }
    }

    fn at(&self, now: u64) -> Instant {
        self.zero + Duration::from_micros(now)
    }

    /// An instant of the Rust as 01's signed microseconds.
    fn micros(&self, time: Instant) -> i64 {
        if time >= self.zero {
            (time - self.zero).as_micros() as i64
        } else {
            -((self.zero - time).as_micros() as i64)
        }
    }

    fn leave(&mut self, why: &str) {
        if self.left.is_none() {
            self.left = Some((self.records, why.to_string()));
        }
    }

    fn mean(&self) -> i64 {
        i64::from(self.answering.arq.round_trip().mean().as_micros())
    }

    pub fn lrsn(&self) -> u32 {
        self.answering.arq.window().next_ack_dsn().0
    }

    pub fn front(&self) -> u32 {
        self.answering.arq.window().front_number().0
    }

    pub fn held(&self) -> usize {
        self.answering.arq.window().held()
    }

    pub fn next_number(&self) -> u32 {
        self.answering.arq.window().next_number().0
    }

    pub fn ack_numbers(&self) -> Option<(u32, u32)> {
        let history = self.answering.arq.history();
        let first = history.entries().next()?.1 .0;
        Some((first, history.entries().next_back()?.1 .0))
    }

    pub fn reference(&self) -> (i64, u32) {
        let (time, stamp) = self.answering.arq.window().clock().base().reference();
        (self.micros(time), stamp.as_micros())
    }

    /// Readings at which some test of 01 turns: a time before or at it answers otherwise than one after it.
    pub fn edges(&self) -> Vec<i64> {
        let latency = i64::from(self.header.latency);
        let arq = &self.answering.arq;
        let mut edges = Vec::new();
        for entry in arq.window().entries() {
            match entry {
                Seen::Lost { k, feedback } => edges.push(self.micros(feedback) + i64::from(k) * self.mean()),
                Seen::Received { time } => {
                    edges.push(self.micros(time) + latency);
                    edges.push(self.micros(time) + latency + 5_000);
                }
                Seen::GivenUp => {}
            }
        }
        if let Some((_, _, departure)) = arq.history().entries().next_back() {
            edges.push(self.micros(departure) + 2 * self.mean());
        }
        if let Some((_, _, departure)) = arq.history().entries().next() {
            edges.push(self.micros(departure) + latency + 2 * self.mean());
        }
        edges
    }

    /// Whether each held entry is lost, front first.
    pub fn lost(&self) -> Vec<bool> {
        self.answering.arq.window().entries().map(|e| matches!(e, Seen::Lost { .. })).collect()
    }

    /// One record: its line without the number. None after a panic of the Rust.
    pub fn feed(&mut self, record: &Record) -> Option<String> {
        self.records += 1;
        if let Some(refusal) = self.refusal(record) {
            if self.switches.refusals {
                self.acts.refusals += 1;
                return Some(format!("refused {refusal}"));
            }
            self.leave(&format!("refusal {refusal}"));
        }
        TIE.with(|t| t.set(false));
        CALLING.with(|c| c.set(true));
        let line = catch_unwind(AssertUnwindSafe(|| self.call(record)));
        CALLING.with(|c| c.set(false));
        if TIE.with(|t| t.get()) {
            self.leave("a tie");
        }
        match line {
            Ok(line) => {
                if let (Some(now), false) = (reading(record), line.starts_with("refused")) {
                    self.latest = self.latest.max(now as i64);
                }
                Some(line)
            }
            Err(_) => {
                self.panicked = true;
                self.leave("a panic of the Rust");
                None
            }
        }
    }

    /// Refusals 3, 4 and 5, in 01's order.
    fn refusal(&self, record: &Record) -> Option<u32> {
        if let Some(now) = reading(record) {
            if now >= READING {
                return Some(3);
            }
            if (now as i64) < self.latest {
                return Some(4);
            }
        }
        let bad = match record {
            Record::Data { number, message, location, .. } => *number >= 1 << 31 || *message >= 1 << 26 || *location > 3,
            Record::Drop(first, last) => *first >= 1 << 31 || *last >= 1 << 31,
            _ => false,
        };
        bad.then_some(5)
    }

    fn call(&mut self, record: &Record) -> String {
        match record {
            Record::Data { now, number, message, location, stamp, payload } => {
                let packet = DataPacket {
                    seq_number: SeqNumber(*number),
                    message_loc: PacketLocation(*location),
                    message_number: MsgNumber(*message),
                    timestamp: TimeStamp::from_micros(*stamp),
                    payload: Bytes::copy_from_slice(payload),
                };
                self.data(*now, packet)
            }
            Record::Pop(now) => self.pop(*now),
            Record::Report(now) => self.report(*now),
            Record::Ack(now) => self.ack(*now),
            Record::Ack2(now, number) => self.ack2(*now, FullAckSeqNumber(*number)),
            Record::Drop(first, last) => self.drop_request(SeqNumber(*first), SeqNumber(*last)),
            Record::Clock(now, stamp) => self.clock(*now, TimeStamp::from_micros(*stamp)),
            Record::Clear => {
                self.answering.arq.clear();
                self.counted(|c| c.on_close_timeout(Instant::now()));
                "clear".to_string()
            }
        }
    }

    fn counted(&mut self, call: impl FnOnce(&mut ReceiverContext)) {
        let (mut timers, mut output) = (Timers, Output);
        let mut context = ReceiverContext::new(&mut timers, &mut output, &mut self.statistics, &mut self.counting);
        call(&mut context);
    }

    /// Leaves the domain if the time since then is longer than an interval can be.
    fn cut(&mut self, now: u64, since: Option<Instant>, what: &str) {
        if let Some(since) = since {
            if now as i64 - self.micros(since) > LONGEST {
                self.leave(&format!("an interval cut by the clamp ({what})"));
            }
        }
    }

    fn data(&mut self, now: u64, packet: DataPacket) -> String {
        let number = packet.seq_number;
        let window = self.answering.arq.window();
        if number == window.next_number() && window.buffer_available() > 0 {
            self.cut(now, self.answering.arq.last_arrival(), "arrival");
            if number.0 % 16 == 1 {
                self.cut(now, self.answering.arq.probe(), "probe");
            }
        }
        let at = self.at(now);
        let answer = self.answering.arq.handle_data_packet(at, packet.clone());
        self.counted(|c| c.handle_data_packet(at, packet));
        match answer {
            Ok(DataPacketAction::Received { lrsn, recovered }) => format!("got {} {}", lrsn.0, u8::from(recovered)),
            Ok(DataPacketAction::ReceivedWithLightAck { light_ack, recovered }) => {
                format!("light {} {}", light_ack.0, u8::from(recovered))
            }
            Ok(DataPacketAction::ReceivedWithLoss(list)) => format!("loss {} {}", list.0[0].0 .0, list.0[0].1 .0),
            Err(DataPacketError::BufferFull { .. }) => "refused 7".to_string(),
            Err(DataPacketError::PacketTooEarly { buffer_available, buffer_required, .. }) => {
                format!("refused 8 {buffer_available} {buffer_required}")
            }
            Err(DataPacketError::PacketTooLate { .. }) => "refused 9".to_string(),
            Err(DataPacketError::DiscardedDuplicate { .. }) => "refused 10".to_string(),
            Err(DataPacketError::DecryptionError(_)) => unreachable!(),
        }
    }

    fn pop(&mut self, now: u64) -> String {
        let at = self.at(now);
        let before = self.held();
        let first_received = self.answering.arq.window().entries().find_map(|e| match e {
            Seen::Received { time } => Some(self.micros(time)),
            _ => None,
        });
        let answer = self.answering.arq.pop_next_message(at);
        let _ = self.counting.arq.pop_next_message(at);
        match answer {
            Ok(None) => "none".to_string(),
            Ok(Some((time, bytes))) => {
                let packets = before - self.held();
                let count = if self.switches.packet_count { format!(" {packets}") } else { String::new() };
                let line = format!("message {} {}{count}", self.micros(time), bytes.len());
                self.message = bytes;
                line
            }
            Err(late) => {
                let (first, end) = (late.too_late_packets.start, late.too_late_packets.end);
                // What was discarded ends with a received entry, so the window's first received one is the first walked.
                let delay = now as i64 - (first_received.unwrap() + i64::from(self.header.latency));
                if delay != delay.clamp(-LONGEST - 1, LONGEST) {
                    self.leave("an interval cut by the clamp (delay)");
                }
                format!("late {} {} {}", first.0, end.0, late.delay.as_micros())
            }
        }
    }

    fn report(&mut self, now: u64) -> String {
        let mean = self.mean();
        let most = self.answering.arq.window().entries().filter_map(|e| match e {
            Seen::Lost { k, .. } => Some(i64::from(k)),
            _ => None,
        });
        let most = most.max().unwrap_or(0);
        if most >= 65_535 {
            self.leave("k at 65,535");
        }
        if most * mean > LONGEST {
            self.leave("k x mean RTT at 2^31");
        }
        let at = self.at(now);
        let answer = self.answering.arq.on_nak_event(at);
        self.counted(|c| c.on_nak_event(at));
        match answer {
            None => "none".to_string(),
            Some(list) => list.words().iter().fold("report".to_string(), |line, word| format!("{line} {word}")),
        }
    }

    fn ack(&mut self, now: u64) -> String {
        let arq = &self.answering.arq;
        let lrsn = arq.window().next_ack_dsn();
        if arq.window().buffer_available() > 0 && arq.history().acknowledged() != lrsn {
            let newest = arq.history().entries().next_back();
            if 2 * self.mean() > LONGEST {
                self.leave("2 x mean RTT at 2^31");
            }
            self.cut(now, newest.filter(|e| e.0 == lrsn).map(|e| e.2), "since the newest ACK");
        }
        let at = self.at(now);
        let answer = self.answering.arq.on_full_ack_event(at);
        self.counted(|c| c.on_full_ack_event(at));
        if self.answering.arq.history().held() > 1_024 {
            self.leave("a full history");
        }
        let Some(Acknowledgement::Full(number, s, ack)) = answer else { return "none".to_string() };
        let mut link = s.data_receive_rate;
        if link.is_some() {
            let whole = self.answering.arq.link_by_01();
            self.acts.link_figure[0] += 1;
            self.acts.link_figure[1] += u64::from(whole != link);
            // 01: "The Rust's f64 may differ by one"; a wider difference is the Rust's and stays.
            let near = whole.zip(link).is_some_and(|(a, b)| a.abs_diff(b) == 1);
            if self.switches.link_figure && near {
                link = whole;
            }
        }
        let rate = |r: Option<u32>| r.map_or("-".to_string(), |r| r.to_string());
        format!(
            "ack {} {} {} {} {} {} {} {}",
            ack.0,
            number.0,
            s.rtt.mean().as_micros(),
            s.rtt.variance().as_micros(),
            s.buffer_available,
            rate(s.packet_receive_rate),
            rate(s.estimated_link_capacity),
            rate(link)
        )
    }

    fn ack2(&mut self, now: u64, number: FullAckSeqNumber) -> String {
        let departure = self.answering.arq.history().entries().find(|e| e.1 == number).map(|e| e.2);
        self.cut(now, departure, "round trip");
        let at = self.at(now);
        let answer = self.answering.arq.handle_ack2_packet(at, number).copied();
        self.counted(|c| c.handle_ack2_packet(at, number));
        match answer {
            None => "none".to_string(),
            Some(rtt) => format!("rtt {} {}", rtt.mean().as_micros(), rtt.variance().as_micros()),
        }
    }

    fn drop_request(&mut self, first: SeqNumber, last: SeqNumber) -> String {
        let (start, end) = self.answering.arq.window().drop_indices(first..last + 1);
        if end < start {
            self.leave("a drop end below its start");
        }
        let count = self.answering.arq.handle_drop_request(self.zero, first..last + 1);
        let zero = self.zero;
        self.counted(|c| c.handle_drop_request(zero, first..=last));
        format!("gone {count}")
    }

    fn clock(&mut self, now: u64, stamp: TimeStamp) -> String {
        let at = self.at(now);
        let clock = self.answering.arq.window().clock();
        let (base, first) = (clock.base(), clock.samples().is_none());
        let drift = base.timestamp_from(at) - stamp;
        let answer = self.answering.arq.synchronize_clock(at, stamp);
        self.counted(|c| c.synchronize_clock(at, stamp));
        let line = if first {
            self.put_base(base, at, Some(drift));
            "none".to_string()
        } else {
            self.sums.add(drift.as_micros());
            self.shadow.add(drift.as_micros());
            if self.sums.n < 1_000 {
                return "none".to_string();
            }
            self.thousand(at, base, answer.map(|a| a.parts()))
        };
        (self.sums, self.shadow) = (Sums::default(), OnlineStats::new());
        line
    }

    /// The thousandth sample: mean and deviation by the Rust, or by 01's sums.
    fn thousand(&mut self, at: Instant, base: crate::protocol::time::TimeBase, answer: Option<(i32, i32)>) -> String {
        let theirs = (self.shadow.mean() as i32, self.shadow.stddev() as i32);
        assert!(answer.is_none() || answer == Some(theirs));
        let v = self.sums.variance();
        self.variance = v;
        let ours = (self.sums.mean as i32, self.sums.deviation());
        if v.sqrt() as i32 != ours.1 {
            self.leave("a root that rounds up");
        }
        self.acts.drift_sums[0] += 1;
        self.acts.drift_sums[1] += u64::from(ours != theirs);
        // Where the sums agree, the Rust decides.
        let by_sums = self.switches.drift_sums && ours != theirs;
        let (mean, deviation) = if by_sums { ours } else { theirs };
        let unsteady = if by_sums { deviation > 5_000 } else { answer.is_none() };
        self.put_base(base, at, (!unsteady).then_some(TimeSpan::from_micros(mean)));
        // receiver/mod.rs counted by the Rust's own deviation.
        self.statistics.rx_clock_adjustments -= u64::from(answer.is_some());
        self.statistics.rx_clock_adjustments += u64::from(!unsteady);
        if unsteady {
            self.acts.unsteady += 1;
        }
        match unsteady {
            true if self.switches.unsteady => format!("unsteady {deviation}"),
            true => "none".to_string(),
            false => format!("adjusted {mean} {deviation}"),
        }
    }

    /// The time base after an adjustment by this drift (none: as it was), by 01's sign or by the Rust's.
    fn put_base(&mut self, base: crate::protocol::time::TimeBase, at: Instant, drift: Option<TimeSpan>) {
        let mut after = base;
        if let Some(drift) = drift {
            after.adjust(at, drift);
            // The Rust's own adjustment with the sign turned, where the sign can be turned.
            let mut ours = base;
            if drift == TimeSpan::MIN {
                ours = base.adjusted_by_01(at, drift);
            } else {
                ours.adjust(at, -drift);
            }
            self.acts.drift_sign[0] += 1;
            self.acts.drift_sign[1] += u64::from(ours.reference() != after.reference());
            if self.switches.drift_sign {
                after = ours;
            }
        }
        self.answering.arq.window_mut().clock_mut().put_base(after);
        self.counting.arq.window_mut().clock_mut().put_base(after);
    }

    pub fn end(&self) -> String {
        format!("end {} {} {} {}", self.records, self.lrsn(), self.front(), self.held())
    }

    pub fn stand(&self) -> Stand {
        let arq = &self.answering.arq;
        let (history, clock) = (arq.history(), arq.window().clock());
        let time = |t: Option<Instant>| t.map(|t| self.micros(t));
        Stand {
            latest: self.latest,
            held: self.held(),
            front: self.front(),
            lrsn: self.lrsn(),
            reference: self.reference(),
            released: time(clock.last_released()),
            seen: clock.samples().is_some(),
            sums: (self.sums.mean.to_bits(), self.sums.q.to_bits(), self.sums.n),
            rtt: (self.mean(), i64::from(arq.round_trip().variance().as_micros())),
            arrivals: arq.arrivals().iter().map(|(t, size)| (i64::from(*t), *size)).collect(),
            arrival: time(arq.last_arrival()),
            pairs: arq.pairs().iter().map(|t| i64::from(*t)).collect(),
            probe: time(arq.probe()),
            acks: history.entries().map(|(number, ack, at)| (number.0, ack.0, self.micros(at))).collect(),
            acknowledged: history.acknowledged().0,
            last_acked: history.last_acked().0,
        }
    }

    /// The entries, front first.
    pub fn entries(&self) -> impl Iterator<Item = Entry<'_>> + '_ {
        let window = self.answering.arq.window();
        window.entries().enumerate().map(move |(i, entry)| match entry {
            Seen::Lost { k, feedback } => Entry::Lost { k, feedback: self.micros(feedback) },
            Seen::Received { .. } => Entry::Received(window.packet(i).unwrap()),
            Seen::GivenUp => Entry::GivenUp,
        })
    }

    /// The payload of a held received entry, by its number.
    pub fn payload(&self, number: u32) -> Option<&[u8]> {
        let place = number.wrapping_sub(self.front()) & 0x7fff_ffff;
        let packet = self.answering.arq.window().packet(place as usize)?;
        Some(&packet.payload)
    }

    pub fn counters(&self) -> [u64; 10] {
        self.statistics.ten().map(|(_, value)| value)
    }

    /// Both receivers have had the same calls; they must stand alike.
    pub fn same(&self) -> bool {
        let seen = |r: &Receiver| (r.arq.window().next_ack_dsn(), r.arq.window().front_number(), r.arq.window().held());
        seen(&self.answering) == seen(&self.counting) && self.answering.arq.round_trip() == self.counting.arq.round_trip()
    }
}

fn reading(record: &Record) -> Option<u64> {
    match record {
        Record::Data { now, .. } | Record::Pop(now) | Record::Report(now) | Record::Ack(now) => Some(*now),
        Record::Ack2(now, _) | Record::Clock(now, _) => Some(*now),
        Record::Drop(..) | Record::Clear => None,
    }
}

/// All that a file gives.
pub struct Outcome {
    pub lines: Vec<String>,
    /// The counters' line; none after `bad` or a panic.
    pub counters: Option<String>,
    pub left: Option<(u64, String)>,
    pub acts: Acts,
}

impl Outcome {
    pub fn text(&self, counters: bool) -> String {
        let mut text = String::new();
        for line in self.lines.iter().chain(self.counters.as_ref().filter(|_| counters)) {
            text.push_str(line);
            text.push('\n');
        }
        text
    }
}

pub fn run(bytes: &[u8], switches: Switches) -> Outcome {
    let mut lines = Vec::new();
    let Some(header) = trace::header(bytes) else {
        lines.push("bad 0".to_string());
        return Outcome { lines, counters: None, left: None, acts: Acts::default() };
    };
    let mut machine = Machine::new(header, switches);
    let mut offset = trace::HEADER;
    let mut counters = None;
    loop {
        if offset == bytes.len() {
            assert!(machine.same());
            lines.push(machine.end());
            counters = Some(machine.statistics.line());
            break;
        }
        let Some((record, length)) = trace::record(&bytes[offset..]) else {
            lines.push(format!("bad {offset}"));
            break;
        };
        offset += length;
        let Some(line) = machine.feed(&record) else { break };
        lines.push(format!("{} {line}", machine.records));
    }
    Outcome { lines, counters, left: machine.left, acts: machine.acts }
}
