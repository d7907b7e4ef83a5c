// Whether what a program wrote has the forms of document 01, "Trace, mark DLT", whatever the receiver's state: each record's line by
// its kind, every number in its range, then the end line and the counters, or `bad` with the right offset.
use crate::trace::{self, Record};

/// What is wrong, if anything.
pub fn wrong(bytes: &[u8], said: &str, counters: bool) -> Option<String> {
    let lines: Vec<&str> = said.split_terminator('\n').collect();
    let Some(header) = trace::header(bytes) else {
        return (lines != ["bad 0"]).then(|| format!("`bad 0` expected, {} lines", lines.len()));
    };
    let (mut at, mut n) = (trace::HEADER, 0);
    loop {
        let Some(line) = lines.get(n) else { return Some(format!("no line {}", n + 1)) };
        if at == bytes.len() {
            let last = lines.get(n + 1).copied().unwrap_or("");
            let behind = lines.len() - n - 1 == usize::from(counters) && (!counters || counted(last));
            let right = end(line, n as i128, i128::from(header.capacity)) && behind;
            return (!right).then(|| format!("no end: `{line}` `{last}`"));
        }
        let Some((record, length)) = trace::record(&bytes[at..]) else {
            let right = *line == format!("bad {at}") && lines.len() == n + 1;
            return (!right).then(|| format!("`bad {at}` expected: `{line}`"));
        };
        at += length;
        n += 1;
        let Some((number, rest)) = line.split_once(' ') else { return Some(format!("`{line}`")) };
        if number != n.to_string() || !answer(&record, rest) {
            return Some(format!("no answer to record {n}: `{line}`"));
        }
    }
}

const SEQ: (i128, i128) = (0, (1 << 31) - 1);
const U32: (i128, i128) = (0, (1 << 32) - 1);
const I32: (i128, i128) = (-(1 << 31), (1 << 31) - 1);

/// A number as 01 writes it: no sign but -, no zeros in front.
fn number(word: &str) -> Option<i128> {
    let n: i128 = word.parse().ok()?;
    (n.to_string() == word).then_some(n)
}

fn values(words: &[&str], ranges: &[(i128, i128)]) -> bool {
    words.len() == ranges.len()
        && words.iter().zip(ranges).all(|(w, (low, high))| number(w).is_some_and(|n| *low <= n && n <= *high))
}

fn rate(word: &str) -> bool {
    word == "-" || values(&[word], &[U32])
}

fn answer(record: &Record, line: &str) -> bool {
    let words: Vec<&str> = line.split(' ').collect();
    let rest = &words[1..];
    let refused = |numbers: &[&str]| rest.len() == 1 && numbers.contains(&rest[0]);
    match (record, words[0]) {
        (Record::Data { .. }, "got" | "light") => values(rest, &[SEQ, (0, 1)]),
        (Record::Data { .. }, "loss") => values(rest, &[SEQ, SEQ]),
        (Record::Data { .. }, "refused") => {
            refused(&["3", "4", "5", "7", "9", "10"]) || values(rest, &[(8, 8), (0, 32), (2, 1 << 30)])
        }
        (Record::Pop(_), "message") => values(rest, &[(-(1 << 62), 1 << 62), (0, 32 * 1_456), (1, 32)]),
        (Record::Pop(_), "late") => values(rest, &[SEQ, SEQ, I32]),
        (Record::Report(_), "report") => !rest.is_empty() && rest.len() <= 32 && rest.iter().all(|w| values(&[w], &[U32])),
        (Record::Ack(_), "ack") => {
            rest.len() == 8
                && values(&rest[..5], &[(1, U32.1), SEQ, SEQ, SEQ, (1, 32)])
                && rest[5..].iter().all(|w| rate(w))
                && (rest[5] == "-") == (rest[6] == "-")
        }
        (Record::Ack2(..), "rtt") => values(rest, &[SEQ, SEQ]),
        (Record::Drop(..), "gone") => values(rest, &[(0, 32)]),
        (Record::Clock(..), "adjusted") => values(rest, &[I32, (0, 5_000)]),
        (Record::Clock(..), "unsteady") => values(rest, &[(5_001, I32.1)]),
        (Record::Clear, "clear") => rest.is_empty(),
        (Record::Drop(..), "refused") => refused(&["5"]),
        (Record::Clear, _) | (Record::Drop(..), _) => false,
        (Record::Ack(_), "refused") => refused(&["3", "4", "13"]),
        (Record::Clock(..), "refused") => refused(&["3", "4", "14"]),
        (_, "refused") => refused(&["3", "4"]),
        (Record::Data { .. }, _) => false,
        (_, "none") => rest.is_empty(),
        _ => false,
    }
}

fn end(line: &str, records: i128, capacity: i128) -> bool {
    let words: Vec<&str> = line.split(' ').collect();
    words[0] == "end" && values(&words[1..], &[(records, records), SEQ, SEQ, (0, capacity)])
}

fn counted(line: &str) -> bool {
    let names = crate::statistics::SocketStatistics::default().line();
    let (given, wanted): (Vec<&str>, Vec<&str>) = (line.split(' ').collect(), names.split(' ').collect());
    given.len() == wanted.len()
        && given[0] == wanted[0]
        && given[1..].iter().zip(&wanted[1..]).all(|(g, w)| {
            let (g, w) = (g.split_once('='), w.split_once('='));
            g.zip(w).is_some_and(|(g, w)| g.0 == w.0 && values(&[g.1], &[(0, u64::MAX.into())]))
        })
}
