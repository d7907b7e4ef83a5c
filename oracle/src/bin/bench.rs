// The port against the Rust in one process: the same calls from the same memory through both, in turn, and the time of each. See
// docs/SPEED.md for what the rows are and what each side copies; bench/run is the command.
#![allow(dead_code, unused_imports)]
#[path = "../connection.rs"]
mod connection;
#[path = "../library.rs"]
mod library;
#[path = "../options.rs"]
mod options;
#[path = "../packet.rs"]
mod packet;
#[path = "../protocol.rs"]
mod protocol;
#[path = "../statistics.rs"]
mod statistics;

use std::{
    env,
    hint::black_box,
    mem::size_of,
    process::exit,
    time::{Duration, Instant},
};

use bytes::Bytes;

use connection::ConnectionSettings;
use library::Port;
use options::PacketCount;
use packet::*;
use protocol::receiver::{DataPacketAction, DataPacketError, Receiver};

/// A reading as each side takes it, so that neither pays for the other's.
#[derive(Copy, Clone)]
struct Reading {
    micros: i64,
    instant: Instant,
}

#[derive(Copy, Clone)]
struct Data {
    at: Reading,
    number: u32,
    message: u32,
    location: u8,
    stamp: u32,
    /// Where its payload lies in the source.
    from: u32,
    length: u32,
}

#[derive(Copy, Clone)]
enum Call {
    Push(Data),
    Pop(Reading),
    Report(Reading),
    Ack(Reading),
    Ack2(Reading, u32),
}

#[derive(Copy, Clone)]
struct Settings {
    latency: u32,
    first: u32,
    capacity: usize,
}

/// What is asked of a side. Each call answers a number made of its answer, so that the two sides can be held against each other.
trait Side {
    fn push(&mut self, data: &Data, payload: &[u8]) -> u64;
    fn pop(&mut self, at: Reading) -> u64;
    fn report(&mut self, at: Reading) -> u64;
    fn ack(&mut self, at: Reading) -> u64;
    fn ack2(&mut self, at: Reading, number: u32) -> u64;
}

/// A message's bytes as one number: its length and its two ends, which a consumer would read.
fn ends(bytes: &[u8]) -> u64 {
    let eight = |b: &[u8]| b.try_into().map_or(0, u64::from_le_bytes);
    match bytes.len() {
        n if n >= 8 => (n as u64) ^ eight(&bytes[..8]) ^ eight(&bytes[n - 8..]).rotate_left(17),
        n => n as u64,
    }
}

const REFUSED: u64 = 1 << 40;
const NOTHING: u64 = 1 << 41;
const LATE: u64 = 1 << 42;

struct Rust(Receiver);

impl Rust {
    fn new(zero: Instant, settings: Settings) -> Self {
        Rust(Receiver::new(ConnectionSettings {
            socket_start_time: zero,
            recv_tsbpd_latency: Duration::from_micros(u64::from(settings.latency)),
            too_late_packet_drop: true,
            init_seq_num: SeqNumber(settings.first),
            recv_buffer_size: PacketCount(settings.capacity as u64),
            cipher: (),
        }))
    }
}

impl Side for Rust {
    #[inline]
    fn push(&mut self, data: &Data, payload: &[u8]) -> u64 {
        let packet = DataPacket {
            seq_number: SeqNumber(data.number),
            message_loc: PacketLocation(data.location),
            message_number: MsgNumber(data.message),
            timestamp: TimeStamp::from_micros(data.stamp),
            payload: Bytes::copy_from_slice(payload),
        };
        match self.0.arq.handle_data_packet(data.at.instant, packet) {
            Ok(DataPacketAction::Received { lrsn, recovered }) => u64::from(lrsn.0) ^ u64::from(recovered) << 32,
            Ok(DataPacketAction::ReceivedWithLightAck { light_ack, recovered }) => {
                u64::from(light_ack.0) ^ u64::from(recovered) << 32 ^ 1 << 33
            }
            Ok(DataPacketAction::ReceivedWithLoss(list)) => u64::from(list.0[0].0 .0) ^ u64::from(list.0[0].1 .0) << 3 ^ 1 << 34,
            Err(DataPacketError::BufferFull { .. }) => REFUSED + 7,
            Err(DataPacketError::PacketTooEarly { .. }) => REFUSED + 8,
            Err(DataPacketError::PacketTooLate { .. }) => REFUSED + 9,
            Err(DataPacketError::DiscardedDuplicate { .. }) => REFUSED + 10,
            Err(DataPacketError::DecryptionError(_)) => unreachable!(),
        }
    }

    #[inline]
    fn pop(&mut self, at: Reading) -> u64 {
        match self.0.arq.pop_next_message(at.instant) {
            Ok(None) => NOTHING,
            Ok(Some((_, bytes))) => ends(&bytes),
            Err(late) => LATE + u64::from(late.too_late_packets.end.0),
        }
    }

    #[inline]
    fn report(&mut self, at: Reading) -> u64 {
        match self.0.arq.on_nak_event(at.instant) {
            None => NOTHING,
            // Every number of the rows stands alone in its report, so runs and words are as many.
            Some(list) => list.0.len() as u64 ^ u64::from(list.0[list.0.len() - 1].0 .0) << 20,
        }
    }

    #[inline]
    fn ack(&mut self, at: Reading) -> u64 {
        match self.0.arq.on_full_ack_event(at.instant) {
            Some(Acknowledgement::Full(number, s, ack)) => {
                let rate = |r: Option<u32>| r.map_or(u64::MAX, u64::from);
                u64::from(number.0)
                    ^ u64::from(ack.0) << 20
                    ^ rate(s.packet_receive_rate) << 7
                    ^ rate(s.estimated_link_capacity) << 9
                    ^ s.rtt.mean().as_micros() as u64
            }
            _ => NOTHING,
        }
    }

    #[inline]
    fn ack2(&mut self, at: Reading, number: u32) -> u64 {
        match self.0.arq.handle_ack2_packet(at.instant, FullAckSeqNumber(number)) {
            None => NOTHING,
            Some(rtt) => rtt.mean().as_micros() as u64 ^ (rtt.variance().as_micros() as u64) << 20,
        }
    }
}

/// The port and what it lends for answers: an output for the longest message of the rows and words for the longest report.
struct Ported {
    port: Port,
    output: Vec<u8>,
    words: Vec<u32>,
}

impl Ported {
    fn new(capacity: usize) -> Self {
        Self { port: Port::areas(capacity), output: vec![0; 16 * library::PAYLOAD], words: vec![0; capacity] }
    }

    fn fresh(&mut self, settings: Settings) {
        assert_eq!(self.port.fresh(0, settings.latency, true, settings.first, settings.capacity), 0);
    }
}

impl Side for Ported {
    #[inline]
    fn push(&mut self, data: &Data, payload: &[u8]) -> u64 {
        let refusal = self.port.data(&library::Packet {
            now: data.at.micros,
            number: data.number,
            message: data.message,
            location: u32::from(data.location),
            stamp: data.stamp,
            payload,
        });
        let answer = &self.port.answer;
        match (refusal, answer[0]) {
            (0, 0) => answer[1] as u64 ^ (answer[2] as u64) << 32,
            (0, 1) => answer[1] as u64 ^ (answer[2] as u64) << 32 ^ 1 << 33,
            (0, _) => answer[1] as u64 ^ (answer[2] as u64) << 3 ^ 1 << 34,
            (refusal, _) => REFUSED + u64::from(refusal),
        }
    }

    #[inline]
    fn pop(&mut self, at: Reading) -> u64 {
        let refusal = self.port.pop(&mut self.output, at.micros);
        let answer = &self.port.answer;
        match (refusal, answer[0]) {
            (0, 4) => ends(&self.output[..answer[2] as usize]),
            (0, 5) => LATE + answer[2] as u64,
            (0, _) => NOTHING,
            (refusal, _) => REFUSED + u64::from(refusal),
        }
    }

    #[inline]
    fn report(&mut self, at: Reading) -> u64 {
        let refusal = self.port.report(&mut self.words, at.micros);
        match (refusal, self.port.answer[0]) {
            (0, 6) => {
                let count = self.port.answer[1] as usize;
                count as u64 ^ u64::from(self.words[count - 1]) << 20
            }
            (0, _) => NOTHING,
            (refusal, _) => REFUSED + u64::from(refusal),
        }
    }

    #[inline]
    fn ack(&mut self, at: Reading) -> u64 {
        let refusal = self.port.ack(at.micros);
        let a = &self.port.answer;
        match (refusal, a[0]) {
            (0, 7) => a[2] as u64 ^ (a[1] as u64) << 20 ^ (a[6] as u64) << 7 ^ (a[7] as u64) << 9 ^ a[3] as u64,
            (0, _) => NOTHING,
            (refusal, _) => REFUSED + u64::from(refusal),
        }
    }

    #[inline]
    fn ack2(&mut self, at: Reading, number: u32) -> u64 {
        let refusal = self.port.ack2(at.micros, number);
        let a = &self.port.answer;
        match (refusal, a[0]) {
            (0, 8) => a[1] as u64 ^ (a[2] as u64) << 20,
            (0, _) => NOTHING,
            (refusal, _) => REFUSED + u64::from(refusal),
        }
    }
}

/// What is timed. Its name is the one that callgrind is told to count in.
#[inline(never)]
fn measured_calls<S: Side>(side: &mut S, calls: &[Call], source: &[u8]) -> u64 {
    let mut all = 0u64;
    for call in calls {
        let one = match call {
            Call::Push(d) => side.push(d, &source[d.from as usize..d.from as usize + d.length as usize]),
            Call::Pop(at) => side.pop(*at),
            Call::Report(at) => side.report(*at),
            Call::Ack(at) => side.ack(*at),
            Call::Ack2(at, number) => side.ack2(*at, *number),
        };
        all = all.rotate_left(5).wrapping_add(one);
    }
    all
}

/// The same, not timed: what comes before.
#[inline(never)]
fn prepared<S: Side>(side: &mut S, calls: &[Call], source: &[u8]) -> u64 {
    let mut all = 0;
    for call in calls {
        all ^= match call {
            Call::Push(d) => side.push(d, &source[d.from as usize..d.from as usize + d.length as usize]),
            Call::Pop(at) => side.pop(*at),
            Call::Report(at) => side.report(*at),
            Call::Ack(at) => side.ack(*at),
            Call::Ack2(at, number) => side.ack2(*at, *number),
        };
    }
    all
}

#[derive(Clone)]
struct Row {
    name: String,
    what: String,
    /// What the time is divided by.
    unit: &'static str,
    units: usize,
    settings: Settings,
    before: Vec<Call>,
    timed: Vec<Call>,
    repeats: usize,
}

const CAPACITY: usize = 8_192;
/// A window little larger than what a stream's latency holds: a few packets over 1,000.
const SMALLER: usize = 1_200;
/// Enough where each packet is popped at once.
const SMALLEST: usize = 32;
const TS: u32 = 1_316;
/// The payloads come from here, as from a reader's buffer: 64 KB, 64 places.
const SOURCE: usize = 65_536 + 1_456;

struct Maker {
    zero: Instant,
    calls: Vec<Call>,
}

impl Maker {
    fn new(zero: Instant) -> Self {
        Self { zero, calls: Vec::new() }
    }

    fn at(&self, micros: i64) -> Reading {
        Reading { micros, instant: self.zero + Duration::from_micros(micros as u64) }
    }

    /// A packet of a stream that sends one each 10 us, of messages of so many packets.
    fn data(&mut self, index: u32, now: i64, packets: u32, length: u32) {
        let place = index % packets;
        let data = Data {
            at: self.at(now),
            number: index & 0x7fff_ffff,
            message: index / packets % (1 << 26),
            location: 2 * u8::from(place == 0) + u8::from(place + 1 == packets),
            stamp: (index - place) * 10,
            from: index % 64 * 1_024,
            length,
        };
        self.calls.push(Call::Push(data));
    }

    fn pop(&mut self, now: i64) {
        let call = Call::Pop(self.at(now));
        self.calls.push(call);
    }

    fn take(&mut self) -> Vec<Call> {
        std::mem::take(&mut self.calls)
    }
}

/// A stream's packets from..to, each pushed 10 us after the last and followed by a pop; every `loss`th (0: none) is missing at first and
/// comes 200 packets later.
fn stream(m: &mut Maker, from: u32, to: u32, packets: u32, length: u32, loss: u32, acks: u32) {
    for i in from..to {
        let now = i64::from(i) * 10;
        if loss == 0 || i % loss != loss / 2 {
            m.data(i, now, packets, length);
        }
        if loss > 0 && i >= 200 && (i - 200) % loss == loss / 2 {
            m.data(i - 200, now, packets, length);
        }
        if i % packets == packets - 1 {
            m.pop(now);
        }
        if acks > 0 && i % acks == acks - 1 {
            let at = m.at(now);
            m.calls.push(Call::Ack(at));
            m.calls.push(Call::Ack2(at, i / acks + 1));
        }
    }
}

fn rows(zero: Instant) -> Vec<Row> {
    let mut m = Maker::new(zero);
    let mut rows = Vec::new();
    let lap = CAPACITY as u32 + 2_008;
    let end = lap + 16_800;
    let backlog = Settings { latency: 10_000, first: 0, capacity: CAPACITY };
    let streams: [(&str, &str, u32, u32, u32, u32, u32); 9] = [
        ("a", "clean stream, single-packet messages, 1,316 bytes", 10_000, 1, TS, 0, 0),
        ("a188", "the same, 188 bytes", 10_000, 1, 188, 0, 0),
        ("a16", "the same, 16 bytes", 10_000, 1, 16, 0, 0),
        ("a0", "the same, 1,316 bytes, no latency: each popped at once", 0, 1, TS, 0, 0),
        ("b", "1 % lost and recovered, 1,316 bytes", 10_000, 1, TS, 100, 0),
        ("b16", "the same, 16 bytes", 10_000, 1, 16, 100, 0),
        ("e", "messages of 7 packets, 1,316 bytes each", 10_000, 7, TS, 0, 0),
        ("e16", "the same, 16 bytes each", 10_000, 7, 16, 0, 0),
        ("f", "clean, an ACK and an ACK2 every 64 packets, 1,316 bytes", 10_000, 1, TS, 0, 64),
    ];
    for (name, what, latency, packets, length, loss, acks) in streams {
        stream(&mut m, 0, lap, packets, length, loss, acks);
        let before = m.take();
        stream(&mut m, lap, end, packets, length, loss, acks);
        let timed = m.take();
        let settings = Settings { latency, ..backlog };
        let units = (end - lap) as usize;
        rows.push(Row { name: name.into(), what: what.into(), unit: "packet", units, settings, before, timed, repeats: 31 });
    }

    // The streams of single packets once more, each in a window of the size that it needs.
    for row in rows.clone().into_iter().filter(|r| !r.name.starts_with('e')) {
        let (capacity, said) = if row.settings.latency == 0 { (SMALLEST, "32") } else { (SMALLER, "1,200") };
        let what = format!("as {}, in a window of {said}", row.name);
        let settings = Settings { capacity, ..row.settings };
        rows.push(Row { name: format!("w{}", row.name), what, settings, ..row });
    }

    // The front alone is lost: its recovery looks through the whole window for the next number to acknowledge.
    let never = Settings { latency: 60_000_000, ..backlog };
    for (name, what, length) in [("c", "recovery of the front, all behind it received, 1,316 bytes", TS)] {
        for i in 1..CAPACITY as u32 {
            m.data(i, 0, 1, length);
        }
        let before = m.take();
        m.data(0, 1_000, 1, length);
        let timed = m.take();
        rows.push(Row { name: name.into(), what: what.into(), unit: "recovery", units: 1, settings: never, before, timed, repeats: 101 });
    }
    // All but the last are lost, and come in order: each moves the number to acknowledge on by one.
    for (name, what, length) in
        [("cc", "recoveries in order, all behind lost, 1,316 bytes", TS), ("cc16", "the same, 16 bytes", 16)]
    {
        m.data(CAPACITY as u32 - 1, 0, 1, length);
        let before = m.take();
        for i in 0..CAPACITY as u32 - 1 {
            m.data(i, 1_000, 1, length);
        }
        let timed = m.take();
        let units = CAPACITY - 1;
        rows.push(Row { name: name.into(), what: what.into(), unit: "recovery", units, settings: never, before, timed, repeats: 31 });
    }

    // Every second number is lost; each report is at a time at which all are due again.
    for i in 0..CAPACITY as u32 / 2 {
        m.data(2 * i + 1, 0, 1, 16);
    }
    let before = m.take();
    let mut now = 0;
    for k in 2..22 {
        now += k * 10_000 + 1;
        let at = m.at(now);
        m.calls.push(Call::Report(at));
    }
    let timed = m.take();
    rows.push(Row {
        name: "d".into(),
        what: "loss reports, full window half lost, all due: 4,096 words".into(),
        unit: "report",
        units: 20,
        settings: never,
        before: before.clone(),
        timed,
        repeats: 31,
    });
    for _ in 0..20 {
        let at = m.at(10_000);
        m.calls.push(Call::Report(at));
    }
    let timed = m.take();
    rows.push(Row {
        name: "dn".into(),
        what: "the same, none due".into(),
        unit: "report",
        units: 20,
        settings: never,
        before,
        timed,
        repeats: 31,
    });

    for (name, what, length) in [("g", "duplicates only, 1,316 bytes", TS), ("g16", "the same, 16 bytes", 16)] {
        for i in 0..CAPACITY as u32 {
            m.data(i, 0, 1, length);
        }
        let before = m.take();
        for i in 0..16_384 {
            m.data(i * 37 % CAPACITY as u32, 1_000, 1, length);
        }
        let timed = m.take();
        rows.push(Row { name: name.into(), what: what.into(), unit: "packet", units: 16_384, settings: never, before, timed, repeats: 31 });
    }
    rows
}

/// The rows that are named, or all.
fn rows_of(chosen: &[String], zero: Instant) -> Vec<Row> {
    let mut rows = rows(zero);
    if let Some(unknown) = chosen.iter().find(|c| rows.iter().all(|r| r.name != c.as_str())) {
        eprintln!("no row {unknown}: there are {}", rows.iter().map(|r| r.name.as_str()).collect::<Vec<_>>().join(" "));
        exit(2)
    }
    rows.retain(|r| chosen.is_empty() || chosen.contains(&r.name));
    rows
}

/// Nanoseconds of the timed calls, and what they answered.
fn run<S: Side>(side: &mut S, row: &Row, source: &[u8]) -> (f64, u64) {
    black_box(prepared(side, &row.before, source));
    let start = Instant::now();
    let answers = measured_calls(side, black_box(&row.timed), source);
    (start.elapsed().as_nanos() as f64, answers)
}

fn median(values: &mut [f64]) -> f64 {
    values.sort_by(f64::total_cmp);
    values[values.len() / 2]
}

fn source() -> Vec<u8> {
    let mut state = 1u64;
    (0..SOURCE)
        .map(|_| {
            state = state.wrapping_mul(6_364_136_223_846_793_005).wrapping_add(1_442_695_040_888_963_407);
            (state >> 56) as u8
        })
        .collect()
}

/// One line a row: medians of both sides and of the pairs' ratios, the quarters of the ratio, and the ratio of both sides' best.
fn table(chosen: &[String]) -> i32 {
    let (zero, source) = (Instant::now(), source());
    let mut ported = Ported::new(CAPACITY);
    let mut differed = 0;
    println!("row\twhat\tunit\tRust ns\tport ns\tratio\tquarters\tof the best");
    for row in rows_of(chosen, zero) {
        let (mut theirs, mut ours, mut ratios) = (Vec::new(), Vec::new(), Vec::new());
        for repeat in 0..row.repeats + 1 {
            let rust = || run(&mut Rust::new(zero, row.settings), &row, &source);
            let mut port = || {
                ported.fresh(row.settings);
                run(&mut ported, &row, &source)
            };
            // Each goes first every second time.
            let (r, p) = if repeat % 2 == 0 {
                let r = rust();
                (r, port())
            } else {
                let p = port();
                (rust(), p)
            };
            if r.1 != p.1 {
                differed = 1;
                println!("{}: the sides answered otherwise: {:x} {:x}", row.name, r.1, p.1);
            }
            // The first pair warms both up.
            if repeat > 0 {
                theirs.push(r.0 / row.units as f64);
                ours.push(p.0 / row.units as f64);
                ratios.push(p.0 / r.0);
            }
        }
        let (t, o, m) = (median(&mut theirs), median(&mut ours), median(&mut ratios));
        let quarters = (ratios[ratios.len() / 4], ratios[ratios.len() * 3 / 4]);
        // All three are sorted by now; the best of each side is the least disturbed by other programs.
        let best = ours[0] / theirs[0];
        println!(
            "{}\t{}\t{}\t{t:.1}\t{o:.1}\t{m:.2}\t{:.2} to {:.2}\t{best:.2}",
            row.name, row.what, row.unit, quarters.0, quarters.1
        );
    }
    differed
}

/// Whether both sides answer alike in every row; says nothing if they do.
fn alike(chosen: &[String]) -> i32 {
    let (zero, source) = (Instant::now(), source());
    let mut differed = 0;
    for row in &rows_of(chosen, zero) {
        let theirs = run(&mut Rust::new(zero, row.settings), row, &source).1;
        let mut ported = Ported::new(row.settings.capacity);
        ported.fresh(row.settings);
        if run(&mut ported, row, &source).1 != theirs {
            println!("{}: the sides answer otherwise", row.name);
            differed = 1;
        }
    }
    differed
}

/// One row on one side, once, for callgrind; prints the count of units.
fn once(name: &str, side: &str) -> i32 {
    let (zero, source) = (Instant::now(), source());
    let Some(row) = rows(zero).into_iter().find(|r| r.name == name) else { usage() };
    let (time, answers) = match side {
        "rust" => run(&mut Rust::new(zero, row.settings), &row, &source),
        "port" => {
            let mut ported = Ported::new(row.settings.capacity);
            ported.fresh(row.settings);
            run(&mut ported, &row, &source)
        }
        _ => usage(),
    };
    println!("{} {} {side} {answers:x} {:.1} ns each", row.units, row.unit, time / row.units as f64);
    0
}

/// What a receiver takes in memory.
fn sizes() -> i32 {
    let settings = Settings { latency: 0, first: 0, capacity: 32 };
    let (entry, ack) = Rust::new(Instant::now(), settings).0.arq.entry_sizes();
    println!("the Rust: receiver {} bytes, an entry of its window {entry}, an ACK {ack}", size_of::<Receiver>());
    for capacity in [32, CAPACITY] {
        println!(
            "capacity {capacity}: the port head {} slots {} payloads {} history {} bytes",
            8 * library::HEAD,
            8 * library::SLOT * capacity,
            library::PAYLOAD * capacity,
            8 * library::HISTORY
        );
    }
    0
}

fn usage() -> ! {
    eprintln!("bench table [ROW ..]         the port against the Rust, a line a row");
    eprintln!("bench alike [ROW ..]         whether they answer alike");
    eprintln!("bench once ROW rust|port     one row on one side, for callgrind");
    eprintln!("bench rows                   the rows' names");
    eprintln!("bench sizes                  memory");
    exit(2)
}

fn main() {
    let words: Vec<String> = env::args().skip(1).collect();
    exit(match words.first().map(String::as_str) {
        Some("table") => table(&words[1..]),
        Some("alike") => alike(&words[1..]),
        Some("once") if words.len() == 3 => once(&words[1], &words[2]),
        Some("rows") => {
            rows(Instant::now()).iter().for_each(|r| println!("{}", r.name));
            0
        }
        Some("sizes") => sizes(),
        _ => usage(),
    })
}
