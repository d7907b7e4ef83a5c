// Traces as document 01 has them ("Trace, mark DLT"): reading and writing the bytes.

pub const HEADER: usize = 24;
pub const PAYLOAD: usize = 1_456;
pub const READING: u64 = 1 << 60;

#[derive(Copy, Clone, Debug)]
pub struct Header {
    pub start: u64,
    pub latency: u32,
    pub dropping: u8,
    pub first: u32,
    pub capacity: u16,
}

#[derive(Clone, Debug)]
pub enum Record {
    Data { now: u64, number: u32, message: u32, location: u8, stamp: u32, payload: Vec<u8> },
    Pop(u64),
    Report(u64),
    Ack(u64),
    Ack2(u64, u32),
    Drop(u32, u32),
    Clock(u64, u32),
    Clear,
}

pub fn put_header(h: &Header, out: &mut Vec<u8>) {
    out.extend(b"DLT");
    out.extend(1u16.to_be_bytes());
    out.extend(h.start.to_be_bytes());
    out.extend(h.latency.to_be_bytes());
    out.push(h.dropping);
    out.extend(h.first.to_be_bytes());
    out.extend(h.capacity.to_be_bytes());
}

pub fn put_record(r: &Record, out: &mut Vec<u8>) {
    let timed = |kind: u8, now: u64, out: &mut Vec<u8>| {
        out.push(kind);
        out.extend(now.to_be_bytes());
    };
    match r {
        Record::Data { now, number, message, location, stamp, payload } => {
            timed(1, *now, out);
            out.extend(number.to_be_bytes());
            out.extend(message.to_be_bytes());
            out.push(*location);
            out.extend(stamp.to_be_bytes());
            out.extend((payload.len() as u16).to_be_bytes());
            out.extend(payload);
        }
        Record::Pop(now) => timed(2, *now, out),
        Record::Report(now) => timed(3, *now, out),
        Record::Ack(now) => timed(4, *now, out),
        Record::Ack2(now, number) => {
            timed(5, *now, out);
            out.extend(number.to_be_bytes());
        }
        Record::Drop(first, last) => {
            out.push(6);
            out.extend(first.to_be_bytes());
            out.extend(last.to_be_bytes());
        }
        Record::Clock(now, stamp) => {
            timed(7, *now, out);
            out.extend(stamp.to_be_bytes());
        }
        Record::Clear => out.push(8),
    }
}

/// A record in the short form of docs/DECISIONS.md.
pub fn short(r: &Record) -> String {
    match r {
        Record::Data { now, number, message, location, stamp, payload } => {
            format!("D {now} {number} {message} {location} {stamp} {}", payload.len())
        }
        Record::Pop(now) => format!("P {now}"),
        Record::Report(now) => format!("L {now}"),
        Record::Ack(now) => format!("F {now}"),
        Record::Ack2(now, number) => format!("A {now} {number}"),
        Record::Drop(first, last) => format!("R {first} {last}"),
        Record::Clock(now, stamp) => format!("K {now} {stamp}"),
        Record::Clear => "C".to_string(),
    }
}

/// A whole trace in that form, from the short form of each record.
pub fn short_trace(h: &Header, records: &[String]) -> String {
    format!("{} {} {} {} {} | {}", h.start, h.latency, h.dropping, h.first, h.capacity, records.join("; "))
}

/// Takes big-endian numbers from the front of what is left.
struct Cursor<'a>(&'a [u8]);

impl<'a> Cursor<'a> {
    fn take(&mut self, n: usize) -> Option<&'a [u8]> {
        if self.0.len() < n {
            return None;
        }
        let (taken, rest) = self.0.split_at(n);
        self.0 = rest;
        Some(taken)
    }

    fn number(&mut self, n: usize) -> Option<u64> {
        Some(self.take(n)?.iter().fold(0, |sum, byte| sum << 8 | u64::from(*byte)))
    }

    fn u32(&mut self) -> Option<u32> {
        Some(self.number(4)? as u32)
    }
}

/// None for each of 01's reasons for `bad 0`.
pub fn header(bytes: &[u8]) -> Option<Header> {
    let mut c = Cursor(bytes);
    if c.take(3)? != b"DLT" || c.number(2)? != 1 {
        return None;
    }
    let h = Header {
        start: c.number(8)?,
        latency: c.u32()?,
        dropping: c.number(1)? as u8,
        first: c.u32()?,
        capacity: c.number(2)? as u16,
    };
    let right =
        h.start < READING && h.latency <= 65_535_000 && h.dropping <= 1 && h.first < 1 << 31 && (1..=32).contains(&h.capacity);
    right.then_some(h)
}

/// The record at the front of the bytes and its length, or None for a cut record, an unknown kind or a length over 1,456.
pub fn record(bytes: &[u8]) -> Option<(Record, usize)> {
    let mut c = Cursor(bytes);
    let r = match c.number(1)? {
        1 => {
            let now = c.number(8)?;
            let (number, message) = (c.u32()?, c.u32()?);
            let location = c.number(1)? as u8;
            let stamp = c.u32()?;
            let length = c.number(2)? as usize;
            if length > PAYLOAD {
                return None;
            }
            Record::Data { now, number, message, location, stamp, payload: c.take(length)?.to_vec() }
        }
        2 => Record::Pop(c.number(8)?),
        3 => Record::Report(c.number(8)?),
        4 => Record::Ack(c.number(8)?),
        5 => Record::Ack2(c.number(8)?, c.u32()?),
        6 => Record::Drop(c.u32()?, c.u32()?),
        7 => Record::Clock(c.number(8)?, c.u32()?),
        8 => Record::Clear,
        _ => return None,
    };
    Some((r, bytes.len() - c.0.len()))
}
