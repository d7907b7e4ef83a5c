// Made-up traces of many kinds, repeatable from a seed. A receiver runs along (by 01's rules), so that a record can be aimed: at the
// next expected number, at a lost one, at a reading where a test of 01 turns, or one beside it.
use crate::{
    machine::{Machine, Switches},
    trace::{put_header, put_record, Header, Record, PAYLOAD, READING},
};

pub const KINDS: [&str; 23] = [
    "mixed", "wrap", "losses", "messages", "late", "drops", "acks", "light", "rates", "pairs", "steady", "unsteady", "edge",
    "exact", "clears", "tiny", "far", "refusals", "history", "reports", "long", "damaged", "pieces",
];

/// splitmix64
pub struct Dice(u64);

impl Dice {
    pub fn new(kind: u64, seed: u64, index: u64) -> Self {
        let mut dice = Dice(seed);
        dice.0 = dice.next() ^ kind.wrapping_mul(0x9e37_79b9_7f4a_7c15);
        dice.0 = dice.next() ^ index;
        dice.next();
        dice
    }

    pub fn next(&mut self) -> u64 {
        self.0 = self.0.wrapping_add(0x9e37_79b9_7f4a_7c15);
        let mut z = self.0;
        z = (z ^ z >> 30).wrapping_mul(0xbf58_476d_1ce4_e5b9);
        z = (z ^ z >> 27).wrapping_mul(0x94d0_49bb_1331_11eb);
        z ^ z >> 31
    }

    pub fn below(&mut self, n: u64) -> u64 {
        (u128::from(self.next()) * u128::from(n) >> 64) as u64
    }

    fn between(&mut self, low: i64, high: i64) -> i64 {
        low + self.below((high - low + 1) as u64) as i64
    }

    fn one_in(&mut self, n: u64) -> bool {
        self.below(n) == 0
    }

    pub fn of<T: Copy>(&mut self, choices: &[T]) -> T {
        choices[self.below(choices.len() as u64) as usize]
    }

    /// The number of an ACK2, from the first and the last ACK held: mostly one of those, now and then the one before or behind.
    pub fn ack2_number(&mut self, held: Option<(u32, u32)>) -> u32 {
        let Some((first, last)) = held else { return self.of(&[0, 1, 2, u32::MAX]) };
        match self.below(8) {
            0 => first.wrapping_sub(1),
            1 => last.wrapping_add(1),
            2 | 3 => last,
            _ => first + self.below(u64::from(last - first) + 1) as u32,
        }
    }

    /// An index, each by its weight.
    fn weighed(&mut self, weights: &[u64]) -> usize {
        let mut at = self.below(weights.iter().sum());
        weights
            .iter()
            .position(|w| {
                if at < *w {
                    true
                } else {
                    at -= w;
                    false
                }
            })
            .unwrap()
    }
}

#[derive(Copy, Clone)]
enum Act {
    Next,
    Gap,
    Recover,
    Again,
    Odd,
    Pop,
    Report,
    Ack,
    Ack2,
    Drop,
    Clock,
    Clear,
    Refused,
}

const ACTS: [Act; 13] = [
    Act::Next,
    Act::Gap,
    Act::Recover,
    Act::Again,
    Act::Odd,
    Act::Pop,
    Act::Report,
    Act::Ack,
    Act::Ack2,
    Act::Drop,
    Act::Clock,
    Act::Clear,
    Act::Refused,
];

struct Profile {
    header: Header,
    records: u64,
    /// Weights of ACTS.
    weights: [u64; 13],
    /// The longest usual step between readings.
    step: u64,
    /// Of 16 readings, how many are aimed at an edge.
    aim: u64,
    /// The most packets of a message.
    packets: u64,
    /// How far a stamp's time may lie from the reading at which the packet is first planned.
    jitter: i64,
    /// Pop before the window fills.
    drain: bool,
    /// One packet in so many is not as planned (message, location, stamp); 0: none.
    twist: u64,
    /// Payloads of any length, so that the file is long.
    heavy: bool,
    /// Ties and drop requests whose end is below their start: they leave the domain, so most traces have none.
    wild: bool,
}

struct Maker {
    dice: Dice,
    machine: Machine,
    profile: Profile,
    bytes: Vec<u8>,
    /// What was planned for each place since the first number: message, location, stamp, length.
    plan: Vec<(u32, u8, u32, usize)>,
    message: u32,
    made: u64,
}

pub fn trace(kind: usize, seed: u64, index: u64) -> Vec<u8> {
    let mut dice = Dice::new(kind as u64, seed, index);
    if KINDS[kind] == "damaged" {
        let base = dice.of(&[0, 1, 2, 3, 4, 5, 6, 15, 16, 17]);
        let mut bytes = trace(base, dice.next(), index);
        let times = 1 + dice.below(3);
        for _ in 0..times {
            damage(&mut dice, &mut bytes);
        }
        return bytes;
    }
    let profile = profile(kind, &mut dice);
    let mut bytes = Vec::new();
    put_header(&profile.header, &mut bytes);
    let message = dice.of(&[0, 0, (1 << 26) - 3]);
    let machine = Machine::new(profile.header, Switches::all());
    let mut maker = Maker { dice, machine, profile, bytes, plan: Vec::new(), message, made: 0 };
    match KINDS[kind] {
        "pairs" => maker.pairs(),
        "steady" | "unsteady" | "edge" => maker.clocks(KINDS[kind]),
        "history" => maker.history(),
        "reports" => maker.reports(),
        _ => maker.usual(),
    }
    maker.bytes
}

fn profile(kind: usize, dice: &mut Dice) -> Profile {
    let name = KINDS[kind];
    let near = (1u32 << 31) - 1 - dice.below(40) as u32;
    let header = Header {
        start: dice.of(&[0, 0, 5, 1_000_000, 1 << 40]),
        latency: dice.of(&[0, 0, 1, 100, 5_000, 20_000, 120_000]),
        dropping: dice.below(2) as u8,
        first: match dice.below(4) {
            0 => 0,
            1 => dice.below(1 << 31) as u32,
            2 => near,
            _ => 16 * dice.below(1000) as u32,
        },
        capacity: dice.of(&[4, 5, 8, 13, 16, 31, 32, 32]),
    };
    let mut p = Profile {
        header,
        records: 20 + dice.below(100),
        //         next gap rec again odd pop rep ack ack2 drop clock clear refused
        weights: [300, 60, 80, 20, 5, 200, 60, 60, 50, 15, 20, 2, 3],
        step: dice.of(&[1, 50, 1_000, 5_000, 30_000]),
        aim: 3,
        packets: dice.of(&[1, 1, 2, 4]),
        jitter: dice.of(&[0, 10, 1_000, 10_000]),
        drain: dice.one_in(2),
        twist: 40,
        heavy: name == "pieces" && dice.one_in(2),
        wild: name == "far" || name != "long" && dice.one_in(8),
    };
    match name {
        "wrap" => p.header.first = near,
        "losses" => p.weights = [200, 200, 220, 40, 5, 120, 120, 20, 10, 10, 2, 0, 0],
        "messages" => {
            p.packets = 1 + dice.below(8);
            p.weights = [400, 30, 60, 10, 0, 250, 10, 10, 5, 5, 2, 0, 0];
            p.twist = dice.of(&[0, 10, 40]);
        }
        "late" => {
            p.header.dropping = 1;
            p.weights = [200, 150, 60, 20, 3, 300, 10, 10, 5, 30, 3, 0, 0];
            p.aim = 8;
            p.twist = dice.of(&[0, 10]);
        }
        "drops" => p.weights = [200, 150, 80, 20, 3, 150, 60, 30, 10, 200, 0, 2, 0],
        "acks" => p.weights = [250, 20, 40, 5, 0, 150, 10, 300, 250, 5, 0, 4, 0],
        "light" => {
            p.records = 150 + dice.below(300);
            p.header.capacity = dice.of(&[8, 32]);
            p.weights = [900, 10, 30, 2, 0, 60, 2, dice.of(&[0, 2, 10]), 2, 1, 0, 1, 0];
            p.drain = true;
            p.header.latency = 0;
            p.jitter = 0;
            p.packets = 1;
            p.twist = 0;
        }
        "rates" => {
            p.records = 60 + dice.below(200);
            p.header.capacity = 32;
            p.weights = [900, 3, 5, 1, 0, 60, 0, 80, 40, 0, 0, 1, 0];
            p.step = dice.of(&[0, 1, 3, 8, 64, 1_000]);
            p.drain = true;
            p.header.latency = 0;
            p.jitter = 0;
            p.packets = 1;
            p.twist = 0;
            p.aim = 0;
        }
        "exact" => {
            p.aim = 13;
            p.header.latency = dice.of(&[0, 1, 5_000, 20_000, 20_001]);
        }
        "clears" => {
            p.weights = [300, 90, 60, 20, 3, 150, 20, 150, 60, 10, 10, 50, 0];
            p.header.dropping = u8::from(!dice.one_in(3));
            p.header.latency = dice.of(&[0, 0, 1, 5_000]);
            p.header.capacity = dice.of(&[8, 16, 32]);
            p.packets = 1 + dice.below(3);
            p.jitter = p.jitter.min(1_000);
            p.twist = 8;
            p.aim = 5;
        }
        "tiny" => {
            p.header.capacity = 1 + dice.below(3) as u16;
            p.drain = false;
        }
        "far" => p.weights = [250, 60, 60, 20, 60, 200, 60, 60, 80, 40, 40, 2, 0],
        "refusals" => p.weights = [200, 60, 60, 20, 20, 120, 60, 60, 60, 40, 20, 4, 250],
        "history" => p.header.latency = dice.of(&[0, 120_000, 20_000_000, 65_535_000, 65_535_000]),
        // Longer than the pieces that a program reads and writes.
        "pieces" => {
            p.records = if p.heavy { 200 + dice.below(200) } else { 5_000 + dice.below(3_000) };
            p.header.dropping = 1;
            p.header.latency = dice.of(&[0, 100, 20_000]);
            p.jitter = p.jitter.min(1_000);
            p.wild = false;
        }
        "long" => {
            p.records = 1_000 + dice.below(2_000);
            p.header.dropping = u8::from(!dice.one_in(4));
            p.header.latency = dice.of(&[0, 100, 20_000]);
            p.jitter = p.jitter.min(1_000);
        }
        _ => {}
    }
    if name == "far" {
        match dice.below(4) {
            0 => p.jitter = 1 << 31,
            1 => {
                p.step = 1 << 29;
                p.header.start = dice.of(&[0, READING - (1 << 37), READING - (1 << 31)]);
            }
            2 => p.weights[4] = 400,
            _ => {
                p.header.latency = 65_535_000;
                p.step = 1 << 24;
            }
        }
    }
    p
}

impl Maker {
    fn put(&mut self, record: Record) -> String {
        put_record(&record, &mut self.bytes);
        self.made += 1;
        self.machine.feed(&record).unwrap_or_default()
    }

    /// A reading: mostly a small step on, sometimes at or beside an edge.
    fn now(&mut self) -> u64 {
        let latest = self.machine.latest;
        if self.dice.below(16) < self.profile.aim {
            let edges = self.machine.edges();
            if !edges.is_empty() {
                let at = self.dice.of(&edges) + self.dice.between(-1, 1);
                if at >= latest && at < latest + 200_000_000 && (at as u64) < READING {
                    return at as u64;
                }
            }
        }
        let most = match self.dice.below(8) {
            0 => 0,
            1 => self.profile.step.saturating_mul(20).min(1 << 31),
            _ => self.profile.step,
        };
        (latest as u64 + self.dice.below(most + 1)).min(READING - 1)
    }

    /// The place of a number since the first, if it is a near one.
    fn place(&self, number: u32) -> Option<usize> {
        let place = number.wrapping_sub(self.profile.header.first) & 0x7fff_ffff;
        (place < 100_000).then_some(place as usize)
    }

    /// The stamp whose time is this instant.
    fn stamp_of(&self, time: i64) -> u32 {
        let (reference, stamp) = self.machine.reference();
        stamp.wrapping_add((time.wrapping_sub(reference)) as u32)
    }

    fn planned(&mut self, number: u32, now: u64) -> (u32, u8, u32, usize) {
        let Some(place) = self.place(number) else { return (0, 3, self.dice.next() as u32, 0) };
        while self.plan.len() <= place {
            let packets = 1 + self.dice.below(self.profile.packets);
            let time = now as i64 + self.dice.between(-self.profile.jitter, self.profile.jitter);
            let stamp = self.stamp_of(time);
            for i in 0..packets {
                let location = 2 * u8::from(i == 0) + u8::from(i + 1 == packets);
                let length = if self.profile.heavy {
                    self.dice.below(PAYLOAD as u64 + 1) as usize
                } else if self.dice.one_in(60) {
                    self.dice.of(&[PAYLOAD, PAYLOAD - 1])
                } else {
                    self.dice.below(12) as usize
                };
                self.plan.push((self.message, location, stamp, length));
            }
            self.message = (self.message + 1) % (1 << 26);
        }
        let mut planned = self.plan[place];
        if self.profile.twist > 0 && self.dice.one_in(self.profile.twist) {
            match self.dice.below(3) {
                0 => planned.0 = planned.0.wrapping_add(1) % (1 << 26),
                1 => planned.1 = self.dice.below(4) as u8,
                _ => {
                    let off = self.dice.between(-30_000, 30_000);
                    planned.2 = self.stamp_of(now as i64 + off);
                }
            }
        }
        planned
    }

    fn data_at(&mut self, number: u32, now: u64) -> String {
        let (message, location, stamp, length) = self.planned(number, now);
        let fill = self.dice.next() as u8;
        self.put(Record::Data { now, number, message, location, stamp, payload: vec![fill; length] })
    }

    fn data(&mut self, number: u32) {
        let now = self.now();
        self.data_at(number, now);
    }

    fn near(&mut self) -> u32 {
        let from = self.machine.front();
        let reach = i64::from(self.profile.header.capacity) + 3;
        (i64::from(from) + self.dice.between(-4, reach)) as u32 & 0x7fff_ffff
    }

    fn usual(&mut self) {
        while self.made < self.profile.records && !self.machine.panicked {
            let weights = self.profile.weights;
            let act = ACTS[self.dice.weighed(&weights)];
            self.act(act);
            let capacity = usize::from(self.profile.header.capacity);
            if self.profile.drain && self.machine.held() + 2 > capacity {
                let now = self.now();
                self.put(Record::Pop(now));
            }
        }
    }

    fn act(&mut self, act: Act) {
        match act {
            Act::Next => {
                let number = self.machine.next_number();
                self.data(number);
            }
            Act::Gap => {
                let room = u64::from(self.profile.header.capacity) - self.machine.held() as u64;
                let gap = 1 + self.dice.below((room / 2 + 2).min(6));
                let number = (u64::from(self.machine.next_number()) + gap) as u32 & 0x7fff_ffff;
                self.data(number);
            }
            Act::Recover => {
                let lost = self.machine.lost();
                let places: Vec<u32> = (0..lost.len() as u32).filter(|i| lost[*i as usize]).collect();
                let number = if places.is_empty() {
                    self.machine.next_number()
                } else {
                    let place = if self.dice.one_in(2) { places[0] } else { self.dice.of(&places) };
                    (self.machine.front() + place) & 0x7fff_ffff
                };
                self.data(number);
            }
            Act::Again => {
                let number = self.near();
                self.data(number);
            }
            Act::Odd => {
                let from = self.dice.of(&[self.machine.front(), self.machine.next_number(), self.machine.lrsn()]);
                let far = match self.dice.below(6) {
                    0 => self.dice.next() as i64,
                    1 => (1 << 30) - self.dice.between(40, 80),
                    2 => -(1 << 30) + self.dice.between(40, 80),
                    3 if self.profile.wild => (1 << 30) + self.dice.between(-40, 40),
                    4 if self.profile.wild => -(1 << 30) + self.dice.between(-3, 3),
                    _ => i64::from(self.profile.header.capacity) + self.dice.between(-2, 2),
                };
                self.data(i64::from(from).wrapping_add(far) as u32 & 0x7fff_ffff);
            }
            Act::Pop => {
                let now = self.now();
                self.put(Record::Pop(now));
            }
            Act::Report => {
                let now = self.now();
                self.put(Record::Report(now));
            }
            Act::Ack => {
                let now = self.now();
                self.put(Record::Ack(now));
            }
            Act::Ack2 => {
                let now = self.now();
                let number = self.dice.ack2_number(self.machine.ack_numbers());
                self.put(Record::Ack2(now, number));
            }
            Act::Drop => {
                let first = self.near();
                let last = match self.dice.below(12) {
                    0 if self.profile.wild => self.near(),
                    1 if self.profile.wild => self.dice.below(1 << 31) as u32,
                    2 => first.wrapping_sub(1) & 0x7fff_ffff,
                    _ => (first + self.dice.below(6) as u32) & 0x7fff_ffff,
                };
                self.put(Record::Drop(first, last));
            }
            Act::Clock => {
                let now = self.now();
                let drift = self.dice.between(-2_000, 2_000);
                let stamp = self.stamp_of(now as i64 - drift);
                self.put(Record::Clock(now, stamp));
            }
            Act::Clear => {
                self.put(Record::Clear);
                if self.dice.one_in(2) {
                    self.taken_back();
                }
            }
            Act::Refused => self.refused(),
        }
    }

    /// After a clear: a packet at the front, the packet that lrsn names, an ACK of it; a late drop of the front alone then takes lrsn
    /// back before the number acknowledged.
    fn taken_back(&mut self) {
        let (front, lrsn) = (self.machine.next_number(), self.machine.lrsn());
        let now = self.now();
        let stamp = self.stamp_of(now as i64);
        let location = self.dice.of(&[2, 2, 0, 3]);
        self.put(Record::Data { now, number: front, message: 1, location, stamp, payload: vec![1, 2] });
        let later = now + 5_000 + self.dice.below(3);
        let stamp = self.stamp_of(later as i64);
        self.put(Record::Data { now: later, number: lrsn, message: 2, location: 3, stamp, payload: vec![3] });
        self.put(Record::Ack(later));
        let due = (later + u64::from(self.profile.header.latency)).min(READING - 1);
        self.put(Record::Pop(due));
        self.put(Record::Ack(due));
    }

    /// A record that one of refusals 3, 4 and 5 meets, at the edge of its range or far out.
    fn refused(&mut self) {
        let mut now = self.now();
        let mut number = self.machine.next_number();
        let (mut message, mut location) = (0, 3);
        let what = self.dice.below(6);
        match what {
            0 => now = (self.machine.latest - 1 - self.dice.below(3) as i64).max(0) as u64,
            1 => now = READING + self.dice.below(2),
            2 => now = self.dice.of(&[u64::MAX, 1 << 63, (1 << 63) - 1]),
            3 => number = (1 << 31) + self.dice.below(3) as u32,
            4 => message = (1 << 26) + self.dice.below(2) as u32,
            _ => location = 4 + self.dice.below(252) as u8,
        }
        let timed = what < 3;
        let record = match self.dice.below(8) {
            0 if timed => Record::Pop(now),
            1 if timed => Record::Report(now),
            2 if timed => Record::Ack(now),
            3 if timed => Record::Ack2(now, 1),
            4 if timed => Record::Clock(now, number),
            0 | 1 if what == 3 => Record::Drop(number, 0),
            2 | 3 if what == 3 => Record::Drop(0, number),
            _ => Record::Data { now, number, message, location, stamp: 0, payload: vec![7; self.dice.below(4) as usize] },
        };
        self.put(record);
    }

    /// Probe pairs: 16n - 1 by a gap, 16n and 16n + 1 appended; then a late drop makes room.
    fn pairs(&mut self) {
        self.profile.header =
            Header { latency: 0, dropping: 1, capacity: 32, first: self.profile.header.first / 16 * 16, ..self.profile.header };
        self.machine = Machine::new(self.profile.header, Switches::all());
        self.bytes.clear();
        put_header(&self.profile.header, &mut self.bytes);
        let width = self.dice.of(&[0, 1, 2, 5, 10, 20, 40, 80, 160, 320, 7, 333, 1_000, 999_999, 1_000_000, 1_000_001]);
        let noise = self.dice.of(&[0, 0, 1, 3]);
        let mut number = self.profile.header.first;
        let rounds = 15 + self.dice.below(5);
        for _ in 0..rounds {
            let now = self.machine.latest as u64 + self.dice.below(200);
            let bare = |now, number: u32, length: usize| Record::Data {
                now,
                number: number & 0x7fff_ffff,
                message: 0,
                location: 1,
                stamp: 0,
                payload: vec![1; length],
            };
            let length = self.dice.below(30) as usize;
            if self.made > 0 {
                self.put(bare(now, number.wrapping_sub(1), length));
            }
            self.put(bare(now, number, length));
            let wide = (width + self.dice.between(-noise, noise)).max(0) as u64;
            if self.dice.one_in(20) {
                self.put(bare(now + wide, number + 2, length));
            }
            self.put(bare(now + wide, number + 1, length));
            self.put(Record::Pop(now + wide));
            number = number.wrapping_add(16) & 0x7fff_ffff;
            if self.dice.one_in(6) {
                self.put(Record::Ack(now + wide));
            }
        }
        let latest = self.machine.latest as u64;
        self.put(Record::Ack(latest));
        self.put(Record::Ack(latest + 20_000));
    }

    /// One clock record whose drift is the given one.
    fn drift(&mut self, drift: i64, step: u64) {
        let now = self.machine.latest as u64 + self.dice.below(step + 1);
        let stamp = self.stamp_of(now as i64 - drift);
        self.put(Record::Clock(now, stamp));
    }

    /// Over 1,001 clock records. The deviation is small, large, or a whole number near 5,000.
    fn clocks(&mut self, name: &str) {
        let step = self.dice.of(&[0, 1, 100, 10_000]);
        let first = self.dice.of(&[0, 0, 1, -1, 700, -300_000, 2_147_483_647, -2_147_483_648]);
        self.drift(first, step);
        let sets = if self.dice.one_in(4) { 2 } else { 1 };
        for _ in 0..sets {
            let offset = self.dice.of(&[0, 0, 1, -3, 250, 100_000, -2_000_000, 2_000_000_000]);
            let wide = match name {
                "steady" => self.dice.of(&[0, 1, 5, 200, 4_000]),
                "unsteady" => self.dice.of(&[8_800, 20_000, 1_000_000, 2_000_000_000]),
                _ => self.dice.of(&[5, 10, 4_999, 5_000, 5_000, 5_001, 5_001, 5_002]),
            };
            let stray = if self.dice.one_in(2) { 0 } else { self.dice.below(40) as i64 };
            for i in 0..1_000 {
                let drift = if name == "edge" {
                    let other = if i < stray { self.dice.between(-2, 2) } else { 0 };
                    offset + if i % 2 == 0 { wide + other } else { -wide - other }
                } else {
                    offset + self.dice.between(-wide, wide)
                };
                self.drift(drift.clamp(-(1 << 31), (1 << 31) - 1), step);
                if self.dice.one_in(100) {
                    self.act(Act::Next);
                    self.act(Act::Pop);
                }
            }
        }
        for _ in 0..10 {
            let act = self.dice.of(&[Act::Next, Act::Gap, Act::Pop, Act::Pop]);
            self.act(act);
        }
    }

    /// Many full ACKs without an ACK2, up to a full history and beyond, then ACK2s of old and new ones.
    fn history(&mut self) {
        let next = self.machine.next_number();
        self.data(next);
        let many = self.dice.of(&[20, 60, 60, 1_040, 1_300]);
        for _ in 0..many {
            let gap = 20_000;
            let now = self.machine.latest as u64 + if self.dice.one_in(9) { self.dice.below(3 * gap + 1) } else { gap };
            if self.dice.one_in(12) && self.machine.held() + 2 < usize::from(self.profile.header.capacity) {
                self.act(Act::Next);
                self.act(Act::Pop);
            }
            let now = now.max(self.machine.latest as u64);
            self.put(Record::Ack(now));
        }
        for _ in 0..12 {
            self.act(Act::Ack2);
            self.act(Act::Ack);
        }
    }

    /// A mean RTT driven down (or up) by ACK2s, then many loss reports at and beside their edges.
    fn reports(&mut self) {
        let next = self.machine.next_number();
        self.data(next);
        let now = self.machine.latest as u64;
        self.put(Record::Ack(now));
        let later = now + self.dice.of(&[0, 0, 0, 100, 500_000, 300_000_000]);
        let times = self.dice.below(90);
        for _ in 0..times {
            self.put(Record::Ack2(later, 1));
        }
        self.act(Act::Gap);
        self.act(Act::Gap);
        let many = 50 + self.dice.below(200);
        self.profile.aim = 14;
        self.profile.step = 2;
        for _ in 0..many {
            let act =
                if self.dice.one_in(30) { self.dice.of(&[Act::Recover, Act::Gap, Act::Drop, Act::Pop]) } else { Act::Report };
            self.act(act);
        }
    }
}

/// Cuts, turns, puts in or takes out a few bytes, anywhere.
pub fn damage(dice: &mut Dice, bytes: &mut Vec<u8>) {
    let length = bytes.len() as u64;
    if length == 0 {
        return;
    }
    let at = (if dice.one_in(6) { dice.below(length.min(24)) } else { dice.below(length) }) as usize;
    match dice.below(8) {
        0 => bytes.truncate(at),
        1 => bytes[at] ^= 1 << dice.below(8),
        2 => bytes[at] = dice.next() as u8,
        3 => bytes[at] = dice.of(&[0, 1, 2, 3, 4, 5, 6, 7, 8, 9, 127, 128, 255]),
        4 => bytes.insert(at, dice.next() as u8),
        5 => {
            bytes.remove(at);
        }
        6 => {
            let end = (at + 1 + dice.below(30) as usize).min(bytes.len());
            bytes.drain(at..end);
        }
        _ => {
            let end = (at + 1 + dice.below(60) as usize).min(bytes.len());
            let again = bytes[at..end].to_vec();
            let to = dice.below(bytes.len() as u64 + 1) as usize;
            bytes.splice(to..to, again);
        }
    }
}

/// Turns a byte of a record, but neither its kind nor a payload's length; or repeats, moves or takes out a record.
pub fn turn_field(dice: &mut Dice, parts: &mut Vec<Vec<u8>>) {
    if parts.len() < 2 {
        return;
    }
    let at = 1 + dice.below(parts.len() as u64 - 1) as usize;
    let to = 1 + dice.below(parts.len() as u64 - 1) as usize;
    match dice.below(8) {
        0 => parts.insert(to, parts[at].clone()),
        1 => parts.swap(at, to),
        2 if parts.len() > 2 => {
            parts.remove(at);
        }
        _ => {
            let record = &mut parts[at];
            let fields = record.len().min(22);
            if fields > 1 {
                let byte = &mut record[1 + dice.below(fields as u64 - 1) as usize];
                let turned = *byte ^ 1 << dice.below(8);
                *byte = dice.of(&[turned, byte.wrapping_add(1), byte.wrapping_sub(1), 0, 255, 128]);
            }
        }
    }
}
