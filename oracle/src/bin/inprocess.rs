// The Rust and the port's library in one process, call by call on the same made-up calls: capacities from 33 to 8,192, which no
// trace can have. Every answer (all ten cells), message byte, loss word and counter and the room are compared after each call, and
// from time to time the whole state. See README.md.
#![allow(dead_code, unused_imports)]
#[path = "../connection.rs"]
mod connection;
#[path = "../generate.rs"]
mod generate;
#[path = "../library.rs"]
mod library;
#[path = "../machine.rs"]
mod machine;
#[path = "../options.rs"]
mod options;
#[path = "../packet.rs"]
mod packet;
#[path = "../protocol.rs"]
mod protocol;
#[path = "../statistics.rs"]
mod statistics;
#[path = "../trace.rs"]
mod trace;

use std::{env, process::exit};

use generate::Dice;
use library::{Packet, Port, CELLS, HISTORY, PAYLOAD, SLOT, WORDS};
use machine::{Entry, Machine, Stand, Switches};
use trace::{Header, Record, READING};

/// What is done besides the call itself.
#[derive(Copy, Clone, PartialEq)]
enum Also {
    Nothing,
    /// First the same call with too little lent: 2, 6, 11 or 12, and nothing may change.
    Short,
    /// Afterwards the whole state is compared.
    Whole,
    /// Afterwards this number's payload is asked for.
    Show(u32),
}

#[derive(Clone)]
struct Step {
    record: Record,
    also: Also,
}

/// The cells that 01's line means, by the boundary's rule: the word's code, then the values in order; a report has its count of words.
fn cells(line: &str, machine: &Machine) -> (u32, [i64; CELLS], Vec<u32>) {
    let mut cells = [0; CELLS];
    let mut words = line.split(' ');
    let word = words.next().unwrap();
    cells[0] = WORDS.iter().position(|w| *w == word).unwrap() as i64;
    let refusal = if word == "refused" { words.next().unwrap().parse().unwrap() } else { 0 };
    let mut list = Vec::new();
    if word == "report" {
        list = words.map(|w| w.parse().unwrap()).collect();
        cells[1] = list.len() as i64;
    } else {
        for (cell, value) in cells[1..9].iter_mut().zip(words) {
            *cell = if value == "-" { -1 } else { value.parse().unwrap() };
        }
    }
    if word == "unsteady" {
        let v = machine.variance;
        cells[9] = if v.is_nan() { 0x7ff8_0000_0000_0000 } else { v.to_bits() as i64 };
    }
    (refusal, cells, list)
}

/// Where the port stands, from the head's words as the boundary lays them out.
fn stand(port: &Port) -> Stand {
    let w = &port.head;
    let moment = |at: usize| (w[at] == 1).then_some(w[at + 1] as i64);
    let ring = |at: usize, count: usize, i: usize| (at + 16 - count + i) % 16;
    let (at, count) = (w[50] as usize, w[51] as usize);
    let arrivals = (0..count).map(|i| ring(at, count, i)).map(|i| (w[18 + i] as i64, w[34 + i])).collect();
    let (at, count) = (w[70] as usize, w[71] as usize);
    let pairs = (0..count).map(|i| w[54 + ring(at, count, i)] as i64).collect();
    let acks = (0..w[75]).map(|i| {
        let place = ((w[74] + i) % 1_024) as usize;
        (port.history[2 * place] as u32, (w[76] + i) as u32, port.history[2 * place + 1] as i64)
    });
    Stand {
        latest: w[0] as i64,
        held: w[3] as usize,
        front: w[4] as u32,
        lrsn: w[5] as u32,
        reference: (w[8] as i64, w[9] as u32),
        released: moment(10),
        seen: w[12] == 1,
        sums: (w[13], w[14], w[15] as u32),
        rtt: (w[16] as i64, w[17] as i64),
        arrivals,
        arrival: moment(52),
        pairs,
        probe: moment(72),
        acks: acks.collect(),
        acknowledged: w[77] as u32,
        last_acked: w[78] as u32,
    }
}

/// What was seen on the way, so that a reader can tell what the runs reached.
#[derive(Default)]
struct Reached {
    words: [u64; 18],
    refusals: [u64; 16],
    longest_report: usize,
    long_reports: u64,
    full: u64,
    full_largest: u64,
    wraps: u64,
    packets_most: i64,
    states: u64,
    shown: u64,
}

impl Reached {
    fn print(&self) {
        let counted = |names: Vec<(String, u64)>| {
            names.iter().filter(|n| n.1 > 0).map(|(n, c)| format!("{n} {c}")).collect::<Vec<_>>().join(", ")
        };
        let words = WORDS.iter().zip(self.words).map(|(w, c)| (w.to_string(), c)).collect();
        println!("answers: {}", counted(words));
        let refusals = self.refusals.iter().enumerate().map(|(n, c)| (format!("no. {n}:"), *c)).collect();
        println!("refusals: {}", counted(refusals));
        println!(
            "reports over 64 words {}, the longest {}; packets found a full window {} times, one of 8,192 {} times; fronts over the \
             wrap {}; longest message {} packets; whole states compared {}; payloads shown {}",
            self.long_reports,
            self.longest_report,
            self.full,
            self.full_largest,
            self.wraps,
            self.packets_most,
            self.states,
            self.shown
        );
    }
}

/// The Rust, and the port twice: by the calls that count and by those that do not.
struct Pair {
    machine: Machine,
    ports: [Port; 2],
    header: Header,
    output: Vec<u8>,
    words: Vec<u32>,
}

enum Outcome {
    Agreed,
    Left,
    Differed(String),
}

macro_rules! hold {
    ($test:expr, $($words:tt)*) => {
        if !$test {
            return Err(format!($($words)*));
        }
    };
}

impl Pair {
    fn new(header: Header, litter: u64) -> Result<Self, String> {
        let capacity = usize::from(header.capacity);
        let mut pair = Pair {
            machine: Machine::new(header, Switches::all()),
            ports: [Port::areas(capacity), Port::areas(capacity)],
            header,
            output: Vec::new(),
            words: Vec::new(),
        };
        // What lies in a fresh receiver's areas must not matter.
        let mut dice = Dice::new(99, litter, 0);
        for port in &mut pair.ports {
            port.slots.iter_mut().for_each(|w| *w = dice.next());
            port.history.iter_mut().for_each(|w| *w = dice.next());
            pair_head(port, &header, &mut dice)?;
        }
        Ok(pair)
    }

    /// The call through the port, by number 0 (counted) or 1.
    fn call(port: &mut Port, counted: bool, record: &Record, output: &mut [u8], words: &mut [u32]) -> u32 {
        match record {
            Record::Data { now, number, message, location, stamp, payload } => {
                let packet = Packet {
                    now: *now as i64,
                    number: *number,
                    message: *message,
                    location: u32::from(*location),
                    stamp: *stamp,
                    payload,
                };
                if counted {
                    port.counted_data(&packet)
                } else {
                    port.data(&packet)
                }
            }
            Record::Pop(now) => port.pop(output, *now as i64),
            Record::Report(now) => port.report(words, *now as i64),
            Record::Ack(now) => port.ack(*now as i64),
            Record::Ack2(now, number) if counted => port.counted_ack2(*now as i64, *number),
            Record::Ack2(now, number) => port.ack2(*now as i64, *number),
            Record::Drop(first, last) if counted => port.counted_drop_request(*first, *last),
            Record::Drop(first, last) => port.drop_request(*first, *last),
            Record::Clock(now, stamp) if counted => port.counted_clock(*now as i64, *stamp),
            Record::Clock(now, stamp) => port.clock(*now as i64, *stamp),
            Record::Clear => port.clear(),
        }
    }

    fn step(&mut self, step: &Step, reached: &mut Reached) -> Outcome {
        let (front, held) = (self.machine.front(), self.machine.held());
        let Some(line) = self.machine.feed(&step.record) else { return Outcome::Left };
        if self.machine.left.is_some() {
            return Outcome::Left;
        }
        reached.wraps += u64::from(self.machine.front() < front && front - self.machine.front() > 1 << 30);
        if held == usize::from(self.header.capacity) && matches!(step.record, Record::Data { .. }) {
            reached.full += 1;
            reached.full_largest += u64::from(held == 8_192);
        }
        match self.compare(step, &line, reached) {
            Ok(()) => Outcome::Agreed,
            Err(why) => Outcome::Differed(why),
        }
    }

    fn compare(&mut self, step: &Step, line: &str, reached: &mut Reached) -> Result<(), String> {
        let (refusal, wanted, list) = cells(line, &self.machine);
        reached.words[wanted[0] as usize] += 1;
        reached.refusals[refusal as usize] += u64::from(refusal > 0);
        let message = if wanted[0] == 4 { self.machine.message.clone() } else { bytes::Bytes::new() };
        if wanted[0] == 4 {
            reached.packets_most = reached.packets_most.max(wanted[3]);
        }
        reached.longest_report = reached.longest_report.max(list.len());
        reached.long_reports += u64::from(list.len() > 64);
        // No more is lent than is needed.
        let (output_len, words_len) = (message.len(), list.len());
        for n in 0..2 {
            let counted = n == 0;
            let name = if counted { "counted" } else { "plain" };
            if step.also == Also::Short && refusal == 0 {
                self.short(n, &step.record, output_len, words_len, reached)?;
            }
            let (head, port) = (self.ports[n].head, &mut self.ports[n]);
            self.output.clear();
            self.output.resize(output_len, 0xa5);
            self.words.clear();
            self.words.resize(words_len, 0xa5a5_a5a5);
            port.answer = [-77; CELLS];
            let given = Self::call(port, counted, &step.record, &mut self.output, &mut self.words);
            hold!(
                given == refusal && port.answer == wanted,
                "{name}: the Rust `{}` = {refusal} {wanted:?}, the port {given} {:?}",
                &line[..line.len().min(200)],
                port.answer
            );
            hold!(self.output == message, "{name}: message bytes differ at {:?}", unlike(&self.output, &message));
            hold!(self.words == list, "{name}: loss words differ at {:?}", unlike(&self.words, &list));
            hold!(refusal == 0 || port.head == head, "{name}: a refused call changed the head");
            hold!(port.room() == 0, "{name}: room refused");
            let room = i64::from(self.header.capacity) - self.machine.held() as i64;
            hold!(port.answer == [15, room, 0, 0, 0, 0, 0, 0, 0, 0], "{name}: room {room}, the port {:?}", port.answer);
            let counters = self.machine.counters();
            hold!(!counted || port.counters == counters, "counters: the Rust {counters:?}, the port {:?}", port.counters);
            match step.also {
                Also::Whole => self.whole(n, name, reached)?,
                Also::Show(number) => self.show(n, name, number, reached)?,
                _ => {}
            }
        }
        let (a, b) = (&self.ports[0].head, &self.ports[1].head);
        hold!(a == b, "the counted call and the plain one leave other heads, at word {:?}", unlike(a, b));
        Ok(())
    }

    /// The call with one word or byte less than it needs, or one byte of payload too many: refused, and nothing changes.
    fn short(&mut self, n: usize, record: &Record, output: usize, words: usize, reached: &mut Reached) -> Result<(), String> {
        let port = &mut self.ports[n];
        let before = (port.head, port.counters, port.slots.clone(), port.history.clone());
        // Twelve megabytes at the largest capacity: copied only where it is small.
        let payloads = (self.header.capacity <= 512).then(|| port.payloads.clone());
        let (mut out, mut list) = (vec![0xa5; output], vec![0xa5a5_a5a5; words]);
        let mut tried = Vec::new();
        let counted = n == 0;
        let slots = matches!(record, Record::Data { .. } | Record::Pop(_) | Record::Report(_) | Record::Drop(..));
        if slots {
            let last = port.slots.pop().unwrap();
            tried.push((2, Self::call(port, counted, record, &mut out, &mut list)));
            port.slots.push(last);
        }
        if matches!(record, Record::Data { .. } | Record::Pop(_)) {
            let last = port.payloads.pop().unwrap();
            tried.push((2, Self::call(port, counted, record, &mut out, &mut list)));
            port.payloads.push(last);
        }
        if matches!(record, Record::Ack(_) | Record::Ack2(..)) {
            let last = port.history.pop().unwrap();
            tried.push((2, Self::call(port, counted, record, &mut out, &mut list)));
            port.history.push(last);
        }
        if let Record::Data { now, number, message, location, stamp, .. } = record {
            let payload = vec![1; PAYLOAD + 1];
            let (now, number, message, location, stamp) = (*now, *number, *message, *location, *stamp);
            let long = Record::Data { now, number, message, location, stamp, payload };
            tried.push((6, Self::call(port, counted, &long, &mut out, &mut list)));
        }
        if output > 0 {
            tried.push((11, Self::call(port, counted, record, &mut out[..output - 1], &mut list)));
        }
        if words > 0 {
            tried.push((12, Self::call(port, counted, record, &mut out, &mut list[..words - 1])));
        }
        for (wanted, given) in tried {
            hold!(wanted == given, "lent too little: refused {wanted} by 01, the port {given}");
            reached.refusals[wanted as usize] += 1;
        }
        let same = before == (port.head, port.counters, port.slots.clone(), port.history.clone());
        hold!(same, "a call that was lent too little changed something");
        hold!(payloads.is_none_or(|p| p == port.payloads), "a call that was lent too little wrote a payload");
        let clean = out.iter().all(|b| *b == 0xa5) && list.iter().all(|w| *w == 0xa5a5_a5a5);
        hold!(clean, "a call that was lent too little wrote into what was lent");
        Ok(())
    }

    /// Head, slots, payloads and history against the Rust's own state.
    fn whole(&self, n: usize, name: &str, reached: &mut Reached) -> Result<(), String> {
        let port = &self.ports[n];
        let (theirs, ours) = (self.machine.stand(), stand(port));
        hold!(theirs == ours, "{name}: state: the Rust {theirs:?}, the port {ours:?}");
        hold!(self.machine.same(), "the Rust's two receivers stand otherwise");
        let (capacity, start) = (usize::from(self.header.capacity), port.head[2] as usize);
        hold!(port.head[1] == capacity as u64 && start < capacity, "{name}: capacity or start");
        for (i, entry) in self.machine.entries().enumerate() {
            let slot = (start + i) % capacity;
            let words = &port.slots[SLOT * slot..SLOT * slot + 3];
            let wanted = match &entry {
                Entry::Lost { k, feedback } => [0, *k as u64, *feedback as u64],
                Entry::GivenUp => [2, 0, 0],
                Entry::Received(p) => {
                    let head = (p.payload.len() as u64) << 2 | u64::from(p.message_loc.0) << 13;
                    [1 | head | u64::from(p.message_number.0) << 15, u64::from(p.timestamp.as_micros()), 0]
                }
            };
            hold!(words == wanted, "{name}: entry {i}: {wanted:?} by the Rust, the port {words:?}");
            if let Entry::Received(p) = entry {
                let bytes = &port.payloads[PAYLOAD * slot..PAYLOAD * slot + p.payload.len()];
                hold!(bytes == p.payload, "{name}: entry {i}: payload bytes differ");
            }
        }
        reached.states += 1;
        Ok(())
    }

    fn show(&mut self, n: usize, name: &str, number: u32, reached: &mut Reached) -> Result<(), String> {
        let port = &mut self.ports[n];
        let refusal = port.show(number);
        let a = port.answer;
        hold!(refusal == 0, "{name}: show {number}: refused {refusal}");
        match self.machine.payload(number) {
            None => hold!(a == [17, 0, 0, 0, 0, 0, 0, 0, 0, 0], "{name}: show {number}: other by the Rust, the port {a:?}"),
            Some(payload) => {
                hold!(a[0] == 16 && a[3..] == [0; 7], "{name}: show {number}: received by the Rust, the port {a:?}");
                let (at, length) = (a[1] as usize, a[2] as usize);
                let bytes = port.payloads.get(at..at + length);
                hold!(bytes == Some(payload), "{name}: show {number}: other bytes at {at}, {length}");
                reached.shown += 1;
            }
        }
        Ok(())
    }
}

/// Makes the head, after settings that are each out of their range by one, which must all be refused and leave it.
fn pair_head(port: &mut Port, header: &Header, dice: &mut Dice) -> Result<(), String> {
    let litter = std::array::from_fn(|_| dice.next());
    port.head = litter;
    let (start, latency, late) = (header.start as i64, header.latency, header.dropping == 1);
    let (first, capacity) = (header.first, usize::from(header.capacity));
    let bad = [
        (-1, latency, first, capacity),
        (READING as i64, latency, first, capacity),
        (start, 65_535_001, first, capacity),
        (start, latency, 1 << 31, capacity),
        (start, latency, first, 0),
        (start, latency, first, 8_193),
    ];
    for (start, latency, first, capacity) in bad {
        let refusal = port.fresh(start, latency, late, first, capacity);
        let words = (refusal, port.answer);
        let same = port.head == litter;
        hold!(words == (15, [3, 0, 0, 0, 0, 0, 0, 0, 0, 0]) && same, "a bad setting: {words:?}, head kept: {same}");
    }
    let refusal = port.fresh(start, latency, late, first, capacity);
    let words = (refusal, port.answer);
    hold!(words == (0, [14, 0, 0, 0, 0, 0, 0, 0, 0, 0]), "making: {words:?}");
    Ok(())
}

fn unlike<T: PartialEq>(a: &[T], b: &[T]) -> Option<usize> {
    a.iter().zip(b).position(|(a, b)| a != b).or((a.len() != b.len()).then_some(a.len().min(b.len())))
}

/// Makes a run's calls, each aimed by where the Rust stands.
struct Maker {
    dice: Dice,
    pair: Pair,
    reached: Reached,
    steps: Vec<Step>,
    most: usize,
    /// What was planned for each place since the first number: message, location, stamp, length.
    plan: Vec<(u32, u8, u32, usize)>,
    message: u32,
    step: u64,
    packets: u64,
    jitter: i64,
    heavy: bool,
    wild: bool,
    twist: u64,
    end: Option<Outcome>,
}

const ACTS: usize = 15;

fn header(dice: &mut Dice) -> Header {
    let capacity = match dice.below(3) {
        0 => 33 + dice.below(8_160) as u16,
        1 => dice.of(&[64, 128, 256, 512, 1_024, 2_048, 4_096, 8_192, 8_192, 8_192]),
        _ => dice.of(&[33, 100, 127, 129, 1_000, 1_023, 1_025, 4_095, 4_097, 8_191, 8_192, 8_192]),
    };
    Header {
        start: dice.of(&[0, 0, 5, 1_000_000, 1 << 40, READING - (1 << 50)]),
        latency: dice.of(&[0, 0, 1, 100, 5_000, 20_000, 120_000, 3_000_000, 65_535_000]),
        dropping: dice.below(2) as u8,
        first: match dice.below(4) {
            0 => dice.below(1 << 31) as u32,
            1 => 16 * dice.below(1_000) as u32,
            _ => (1u32 << 31) - 1 - dice.below(2 * u64::from(capacity) + 40) as u32,
        },
        capacity,
    }
}

impl Maker {
    fn new(seed: u64, index: u64) -> Result<Self, String> {
        let mut dice = Dice::new(7, seed, index);
        let header = header(&mut dice);
        let capacity = usize::from(header.capacity);
        let pair = Pair::new(header, seed ^ index)?;
        Ok(Maker {
            most: dice.of(&[300, 1_500, 2 * capacity + 500, 4 * capacity]),
            plan: Vec::new(),
            message: dice.of(&[0, 0, (1 << 26) - 3]),
            step: dice.of(&[0, 1, 10, 50, 1_000, 5_000]),
            packets: dice.of(&[1, 1, 2, 4, 9, 40]),
            jitter: dice.of(&[0, 10, 1_000, 10_000]),
            heavy: dice.below(6) == 0,
            wild: dice.below(12) == 0,
            twist: dice.of(&[0, 0, 40, 400]),
            dice,
            pair,
            reached: Reached::default(),
            steps: Vec::new(),
            end: None,
        })
    }

    fn capacity(&self) -> u64 {
        u64::from(self.pair.header.capacity)
    }

    fn room(&self) -> u64 {
        self.capacity() - self.pair.machine.held() as u64
    }

    fn done(&self) -> bool {
        self.end.is_some() || self.steps.len() >= self.most
    }

    /// The answer's word: its code.
    fn put(&mut self, record: Record) -> i64 {
        if self.done() {
            return -1;
        }
        let held = self.pair.machine.held() as u64;
        let also = match self.dice.below(600) {
            0..=2 => Also::Whole,
            3..=8 => Also::Short,
            9..=40 => {
                let about = self.dice.below(held + 8) as u32;
                Also::Show(self.pair.machine.front().wrapping_add(about).wrapping_sub(4) & 0x7fff_ffff)
            }
            _ => Also::Nothing,
        };
        let step = Step { record, also };
        self.steps.push(step);
        let step = self.steps.last().unwrap();
        let words = self.reached.words;
        match self.pair.step(step, &mut self.reached) {
            Outcome::Agreed => {}
            other => self.end = Some(other),
        }
        (0..18).find(|i| self.reached.words[*i] > words[*i]).map_or(-1, |i| i as i64)
    }

    fn now(&mut self) -> u64 {
        let latest = self.pair.machine.latest as u64;
        // Looking for edges walks the window, so it is rarer where that is long.
        if self.dice.below(4 + self.capacity() / 16) == 0 {
            let edges = self.pair.machine.edges();
            if !edges.is_empty() {
                let at = self.dice.of(&edges) + self.dice.below(3) as i64 - 1;
                if at >= latest as i64 && at < latest as i64 + 200_000_000 {
                    return at as u64;
                }
            }
        }
        let most = match self.dice.below(32) {
            0 => self.step * 100,
            1..=4 => 0,
            _ => self.step,
        };
        latest + self.dice.below(most + 1)
    }

    /// A reading by which what is there has become due.
    fn later(&mut self) -> u64 {
        let by = u64::from(self.pair.header.latency) + self.dice.of(&[0, 5_000, 10_000]);
        self.pair.machine.latest as u64 + by
    }

    fn stamp_of(&self, time: i64) -> u32 {
        let (reference, stamp) = self.pair.machine.reference();
        stamp.wrapping_add(time.wrapping_sub(reference) as u32)
    }

    fn planned(&mut self, number: u32, now: u64) -> (u32, u8, u32, usize) {
        let place = (number.wrapping_sub(self.pair.header.first) & 0x7fff_ffff) as usize;
        if place > 400_000 {
            return (0, 3, self.dice.next() as u32, 0);
        }
        while self.plan.len() <= place {
            let packets = 1 + self.dice.below(self.packets);
            let jitter = self.dice.below(2 * self.jitter as u64 + 1) as i64 - self.jitter;
            let stamp = self.stamp_of(now as i64 + jitter);
            for i in 0..packets {
                let location = 2 * u8::from(i == 0) + u8::from(i + 1 == packets);
                let length = match self.dice.below(if self.heavy { 4 } else { 64 }) {
                    0 => self.dice.of(&[PAYLOAD, PAYLOAD - 1, 1_316, 0, 8, 7]),
                    1 => self.dice.below(PAYLOAD as u64 + 1) as usize,
                    _ => self.dice.below(40) as usize,
                };
                self.plan.push((self.message, location, stamp, length));
            }
            self.message = (self.message + 1) % (1 << 26);
        }
        let mut planned = self.plan[place];
        if self.twist > 0 && self.dice.below(self.twist) == 0 {
            match self.dice.below(3) {
                0 => planned.0 = planned.0.wrapping_add(1) % (1 << 26),
                1 => planned.1 = self.dice.below(4) as u8,
                _ => {
                    let off = self.dice.below(60_001) as i64 - 30_000;
                    planned.2 = self.stamp_of(now as i64 + off);
                }
            }
        }
        planned
    }

    /// A packet of this number; its bytes are new each time, so that a repeat that overwrote anything would be seen.
    fn data(&mut self, number: u32) -> i64 {
        let number = number & 0x7fff_ffff;
        let now = self.now();
        let (message, location, stamp, length) = self.planned(number, now);
        let mut payload = Vec::with_capacity(length + 8);
        while payload.len() < length {
            payload.extend(self.dice.next().to_le_bytes());
        }
        payload.truncate(length);
        self.put(Record::Data { now, number, message, location, stamp, payload })
    }

    fn next(&self) -> u32 {
        self.pair.machine.next_number()
    }

    /// A count: mostly small, sometimes a good part of the most, sometimes all of it.
    fn many(&mut self, most: u64) -> u64 {
        let n = match self.dice.below(16) {
            0 => most,
            1..=3 => self.dice.below(most + 1),
            4..=7 => self.dice.below(64),
            _ => 1 + self.dice.below(6),
        };
        n.min(most)
    }

    fn near(&mut self) -> u32 {
        let reach = if self.dice.below(4) == 0 { self.capacity() } else { self.pair.machine.held() as u64 };
        let about = self.dice.below(reach + 12) as u32;
        self.pair.machine.front().wrapping_add(about).wrapping_sub(6) & 0x7fff_ffff
    }

    fn act(&mut self, act: usize) {
        match act {
            // Appends, to a full window and one beyond.
            0 => {
                let most = self.room() + 1;
                for _ in 0..self.many(most) {
                    self.data(self.next());
                }
            }
            // A gap: small, or as wide as fits, or one too wide.
            1 => {
                let room = self.room();
                let gap = match self.dice.below(8) {
                    0 => room,
                    1 => room.saturating_sub(1),
                    2 => self.dice.below(room + 2),
                    _ => 1 + self.dice.below(5),
                };
                self.data(self.next().wrapping_add(gap as u32));
            }
            // Every second number, or every so many, is lost.
            2 => {
                let gap = self.dice.of(&[1, 1, 1, 2, 3]);
                let most = self.room() / u64::from(gap + 1);
                for _ in 0..self.many(most) {
                    self.data(self.next().wrapping_add(gap));
                }
            }
            // Recoveries: from the front, from the back, or in any order.
            3 => {
                let (lost, front) = (self.pair.machine.lost(), self.pair.machine.front());
                let mut places: Vec<u32> = (0..lost.len() as u32).filter(|i| lost[*i as usize]).collect();
                match self.dice.below(3) {
                    0 => {}
                    1 => places.reverse(),
                    _ => (1..places.len()).for_each(|i| places.swap(i, self.dice.below(i as u64 + 1) as usize)),
                }
                let most = places.len() as u64;
                for place in places.into_iter().take(self.many(most) as usize) {
                    self.data(front.wrapping_add(place));
                }
            }
            // Repeats, late ones, some new ones.
            4 => {
                for _ in 0..self.many(100) {
                    let number = self.near();
                    self.data(number);
                }
            }
            5 => self.odd(),
            6 => self.pops(),
            7 => {
                for _ in 0..1 + self.dice.below(3) {
                    let now = match self.dice.below(3) {
                        0 => self.pair.machine.latest as u64 + self.dice.of(&[20_000, 20_001, 30_000, 30_001, 400_000]),
                        _ => self.now(),
                    };
                    self.put(Record::Report(now));
                }
            }
            // A full ACK, often at or beside the readings at which its two tests turn, which are the last of the edges.
            8 => {
                let mut now = self.now();
                if self.dice.below(2) == 0 && self.pair.machine.ack_numbers().is_some() {
                    let edges = self.pair.machine.edges();
                    let at = self.dice.of(&edges[edges.len() - 2..]) + self.dice.below(3) as i64 - 1;
                    now = now.max(at.max(0) as u64);
                }
                self.put(Record::Ack(now));
            }
            9 => {
                let now = self.now();
                let number = self.dice.ack2_number(self.pair.machine.ack_numbers());
                self.put(Record::Ack2(now, number));
            }
            10 => {
                let first = self.near();
                let wide = self.pair.machine.held() as u64;
                let last = match self.dice.below(12) {
                    0 if self.wild => self.near(),
                    1 => first.wrapping_sub(1),
                    _ => first.wrapping_add(self.many(wide) as u32),
                };
                self.put(Record::Drop(first, last & 0x7fff_ffff));
            }
            11 => self.clocks(),
            12 => {
                self.put(Record::Clear);
                if self.dice.below(2) == 0 {
                    self.taken_back();
                }
            }
            13 => self.refused(),
            _ => {
                // A whole round: fill, report what is lost, recover, release.
                for act in [2, 7, 0, 8, 3, 6, 9] {
                    self.act(act);
                }
            }
        }
    }

    /// A few clock samples; or over a thousand; or a thousand whose deviation is at the tolerance or just beside it.
    fn clocks(&mut self) {
        let wide = self.dice.of(&[1, 500, 5_000, 9_000, 20_000]);
        let (known, offset) = (self.dice.of(&[4_999, 5_000, 5_000, 5_001]), self.dice.of(&[0, 0, 1, -3, 250]));
        let strays = self.dice.of(&[0, 0, 40]);
        let (any, exact) = match self.dice.below(16) {
            0 => (1_010, 0),
            1 => {
                // What was begun is finished first.
                let stand = self.pair.machine.stand();
                let (seen, samples) = (stand.seen, u64::from(stand.sums.2));
                (u64::from(!seen) + (1_000 - samples) % 1_000, 1_000)
            }
            _ => (1 + self.dice.below(3), 0),
        };
        for i in 0..any + exact {
            let drift = if i < any {
                self.dice.below(2 * wide + 1) as i64 - wide as i64
            } else {
                let stray = if i - any < strays { self.dice.below(5) as i64 } else { 0 };
                offset + (known + stray) * (1 - 2 * ((i - any) as i64 % 2))
            };
            let now = self.pair.machine.latest as u64 + self.dice.below(3);
            let stamp = self.stamp_of(now as i64 - drift);
            self.put(Record::Clock(now, stamp));
        }
    }

    /// After a clear: a packet at the front, the one that lrsn names, an ACK of it; a late drop of the front alone then takes lrsn back
    /// before the number acknowledged.
    fn taken_back(&mut self) {
        let (front, lrsn) = (self.next(), self.pair.machine.lrsn());
        let now = self.now();
        let stamp = self.stamp_of(now as i64);
        self.put(Record::Data { now, number: front, message: 1, location: 2, stamp, payload: vec![1, 2] });
        let later = now + 5_000 + self.dice.below(3);
        let stamp = self.stamp_of(later as i64);
        self.put(Record::Data { now: later, number: lrsn, message: 2, location: 3, stamp, payload: vec![3] });
        self.put(Record::Ack(later));
        let due = later + u64::from(self.pair.header.latency);
        self.put(Record::Pop(due));
        self.put(Record::Ack(due));
    }

    fn odd(&mut self) {
        let from = self.dice.of(&[self.pair.machine.front(), self.next(), self.pair.machine.lrsn()]);
        let half = 1i64 << 30;
        let far = match self.dice.below(6) {
            0 => half - 8_300 - self.dice.below(100) as i64,
            1 => 8_300 + self.dice.below(100) as i64 - half,
            2 if self.wild => half + self.dice.below(17_000) as i64 - 8_500,
            3 => self.dice.below(half as u64 - 9_000) as i64,
            4 => -(self.dice.below(half as u64 - 9_000) as i64),
            _ => self.capacity() as i64 + self.dice.below(5) as i64 - 2,
        };
        self.data(i64::from(from).wrapping_add(far) as u32);
    }

    fn pops(&mut self) {
        let mut now = if self.dice.below(2) == 0 { self.later() } else { self.now() };
        let most = self.pair.machine.held() as u64 + 2;
        for _ in 0..self.many(most).max(1) {
            if self.put(Record::Pop(now)) == 13 {
                break;
            }
            if self.dice.below(8) == 0 {
                now = self.now();
            }
        }
    }

    /// Refusals 3, 4 and 5.
    fn refused(&mut self) {
        let latest = self.pair.machine.latest as u64;
        let mut number = self.next();
        let (mut now, mut message, mut location) = (latest, 0, 3);
        let what = self.dice.below(5);
        match what {
            0 => now = latest.saturating_sub(1),
            1 => now = READING + self.dice.below(2),
            2 => number = (1 << 31) + self.dice.below(3) as u32,
            3 => message = (1 << 26) + self.dice.below(2) as u32,
            _ => location = 4 + self.dice.below(252) as u8,
        }
        let record = match self.dice.below(8) {
            0 if what < 2 => Record::Pop(now),
            1 if what < 2 => Record::Report(now),
            2 if what < 2 => Record::Ack(now),
            3 if what < 2 => Record::Ack2(now, 1),
            4 if what < 2 => Record::Clock(now, number),
            0 | 1 if what == 2 => Record::Drop(number, 0),
            2 | 3 if what == 2 => Record::Drop(0, number),
            _ => Record::Data { now, number, message, location, stamp: 0, payload: vec![7; 3] },
        };
        self.put(record);
    }

    fn run(&mut self) {
        //                          next gap comb rec again odd pop rep ack ack2 drop clock clear refused round
        let weights: [u64; ACTS] = [200, 60, 60, 90, 30, 6, 250, 60, 90, 60, 15, 15, 4, 6, 40];
        while !self.done() {
            let mut at = self.dice.below(weights.iter().sum());
            let mut act = 0;
            while at >= weights[act] {
                at -= weights[act];
                act += 1;
            }
            self.act(act);
        }
        if self.end.is_none() {
            for n in 0..2 {
                if let Err(why) = self.pair.whole(n, "at the end", &mut self.reached) {
                    self.end = Some(Outcome::Differed(why));
                }
            }
        }
    }
}

/// A run's calls again, from nothing: why it differs, if it does, and at which call.
fn again(header: Header, steps: &[Step]) -> Option<(usize, String)> {
    let mut pair = match Pair::new(header, 0) {
        Ok(pair) => pair,
        Err(why) => return Some((0, why)),
    };
    let mut reached = Reached::default();
    for (i, step) in steps.iter().enumerate() {
        match pair.step(step, &mut reached) {
            Outcome::Agreed => {}
            Outcome::Left => return None,
            Outcome::Differed(why) => return Some((i, why)),
        }
    }
    for n in 0..2 {
        if let Err(why) = pair.whole(n, "at the end", &mut reached) {
            return Some((steps.len(), why));
        }
    }
    None
}

/// Fewer calls that still differ: parts are left out, halves first, down to single ones.
fn reduced(header: Header, steps: &[Step]) -> Vec<Step> {
    let mut steps = steps.to_vec();
    let mut part = steps.len().div_ceil(2).max(1);
    let mut tries = 3_000;
    loop {
        let mut at = 0;
        while at < steps.len() && tries > 0 {
            tries -= 1;
            let mut fewer = steps.clone();
            fewer.drain(at..(at + part).min(steps.len()));
            match again(header, &fewer) {
                Some((last, _)) => {
                    fewer.truncate(last + 1);
                    steps = fewer;
                }
                None => at += part,
            }
        }
        if part == 1 || tries == 0 {
            return steps;
        }
        part = part.div_ceil(2);
    }
}

/// A run in the short form of docs/DECISIONS.md.
fn written(header: &Header, steps: &[Step]) -> String {
    let calls: Vec<String> = steps.iter().map(|s| trace::short(&s.record)).collect();
    trace::short_trace(header, &calls)
}

fn main() {
    machine::hush_calls();
    let words: Vec<String> = env::args().skip(1).collect();
    let number = |i: usize| words.get(i).and_then(|w| w.parse::<u64>().ok());
    let (Some(runs), Some(seed)) = (number(0), number(1)) else {
        eprintln!("inprocess RUNS SEED [first]     first: stop at the first difference, and do not reduce it");
        exit(2)
    };
    let first = words.get(2).is_some_and(|w| w == "first");
    let (mut agreed, mut left, mut differed) = (0, 0, 0);
    let mut all = Reached::default();
    for index in 0..runs {
        if first && differed > 0 {
            break;
        }
        let mut maker = match Maker::new(seed, index) {
            Ok(maker) => maker,
            Err(why) => {
                println!("run {index}: {why}");
                differed += 1;
                continue;
            }
        };
        maker.run();
        all.add(&maker.reached);
        let steps = maker.steps.len() as u64;
        match maker.end {
            None => agreed += steps,
            Some(Outcome::Left) => {
                agreed += steps - 1;
                left += 1;
            }
            Some(Outcome::Differed(why)) => {
                agreed += steps - 1;
                differed += 1;
                println!("run {index} of seed {seed} differs at call {steps}: {why}");
                if differed <= 3 && !first {
                    let header = maker.pair.header;
                    let few = reduced(header, &maker.steps);
                    println!("reduced to {} calls: {}", few.len(), written(&header, &few));
                    if let Some((at, why)) = again(header, &few) {
                        println!("which differs at call {}: {why}", at + 1);
                    }
                }
            }
            Some(Outcome::Agreed) => unreachable!(),
        }
    }
    all.print();
    println!("{agreed} calls agreed in {runs} runs, {left} left the domain, {differed} differed");
    exit(i32::from(differed > 0))
}

impl Reached {
    fn add(&mut self, o: &Reached) {
        (0..18).for_each(|i| self.words[i] += o.words[i]);
        (0..16).for_each(|i| self.refusals[i] += o.refusals[i]);
        self.longest_report = self.longest_report.max(o.longest_report);
        self.long_reports += o.long_reports;
        self.full += o.full;
        self.full_largest += o.full_largest;
        self.wraps += o.wraps;
        self.packets_most = self.packets_most.max(o.packets_most);
        self.states += o.states;
        self.shown += o.shown;
    }
}
