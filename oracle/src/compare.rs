// The port's program against the Rust: each trace through both, line by line, up to where the trace leaves the Rust's domain.
use std::{
    collections::BTreeMap,
    fs,
    io::{Read, Write},
    path::{Path, PathBuf},
    process::{exit, Child, Command, Stdio},
    sync::{Arc, Mutex},
    thread,
    time::{Duration, Instant},
};

use crate::{
    form,
    generate::{self, Dice, KINDS},
    machine::{self, Acts, Outcome, Switches},
    trace,
};

/// The longest that one trace may take the program.
const PATIENCE: Duration = Duration::from_secs(20);

type Watched = Arc<Mutex<Option<(Child, Instant, bool)>>>;

/// Runs the program on traces, one process each. A second thread ends a process that takes too long.
struct Program {
    path: String,
    file: PathBuf,
    /// Whether it writes counters; if it does not know the word, lines alone are compared, and the last line says so.
    counters: bool,
    watched: Watched,
}

impl Program {
    fn new(path: &str) -> Self {
        let memory = Path::new("/dev/shm");
        let room = if memory.is_dir() { memory.to_path_buf() } else { std::env::temp_dir() };
        let watched: Watched = Arc::default();
        let watching = watched.clone();
        thread::spawn(move || loop {
            thread::sleep(Duration::from_secs(1));
            if let Some((child, since, killed)) = watching.lock().unwrap().as_mut() {
                if since.elapsed() > PATIENCE && !*killed {
                    *killed = child.kill().is_ok();
                }
            }
        });
        let file = room.join(format!("oracle-{}.dlt", std::process::id()));
        let mut program = Self { path: path.to_string(), file, counters: true, watched };
        let mut empty = Vec::new();
        trace::put_header(&trace::Header { start: 0, latency: 0, dropping: 0, first: 0, capacity: 1 }, &mut empty);
        program.counters = program.run(&empty).is_ok_and(|said| said.contains("\ncounters "));
        program
    }

    /// What the program writes, or how it broke.
    fn run(&self, bytes: &[u8]) -> Result<String, String> {
        fs::write(&self.file, bytes).unwrap();
        let mut child = Command::new(&self.path)
            .args(self.counters.then_some("--counters"))
            .arg(&self.file)
            .stdin(Stdio::null())
            .stdout(Stdio::piped())
            .stderr(Stdio::null())
            .spawn()
            .unwrap_or_else(|error| {
                eprintln!("{}: {error}", self.path);
                exit(2)
            });
        let mut pipe = child.stdout.take().unwrap();
        *self.watched.lock().unwrap() = Some((child, Instant::now(), false));
        let mut said = Vec::new();
        pipe.read_to_end(&mut said).map_err(|e| e.to_string())?;
        let (mut child, _, killed) = self.watched.lock().unwrap().take().unwrap();
        let status = child.wait().unwrap();
        if killed {
            return Err(format!("no end within {} s", PATIENCE.as_secs()));
        }
        if status.code().is_none() {
            return Err(format!("{status}"));
        }
        String::from_utf8(said).map_err(|_| "bytes that are no text".to_string())
    }
}

impl Drop for Program {
    fn drop(&mut self) {
        let _ = fs::remove_file(&self.file);
    }
}

fn expected(program: &Program, bytes: &[u8]) -> Outcome {
    let mut outcome = machine::run(bytes, Switches::all());
    if !program.counters {
        outcome.counters = None;
    }
    outcome
}

/// The first line on which they differ, if any; and how many lines were compared.
fn differ(outcome: &Outcome, said: &str) -> (u64, Option<String>) {
    let mut wanted: Vec<&str> = outcome.lines.iter().chain(&outcome.counters).map(String::as_str).collect();
    let mut given: Vec<&str> = said.split_terminator('\n').collect();
    if let Some((record, _)) = outcome.left {
        wanted.truncate(record as usize - 1);
        given.truncate(record as usize - 1);
    } else if !said.ends_with('\n') {
        return (0, Some("no newline at the end".to_string()));
    }
    let longest = wanted.len().max(given.len());
    for i in 0..longest {
        if wanted.get(i) != given.get(i) {
            let text = |line: Option<&&str>| line.map_or("nothing".to_string(), |l| format!("`{l}`"));
            return (i as u64, Some(format!("the Rust {}, the port {}", text(wanted.get(i)), text(given.get(i)))));
        }
    }
    (longest as u64, None)
}

/// A line's kind of answer; a refusal with its number, an ACK with the rates it has.
fn word(line: &str) -> String {
    let words: Vec<&str> = line.split(' ').collect();
    match words[..] {
        ["end" | "bad", ..] => words[0].to_string(),
        [_, "refused", number, ..] => format!("refused-{number}"),
        [_, "ack", .., packets, _, link] => {
            format!("ack{}{}", if packets == "-" { "" } else { "-packets" }, if link == "-" { "" } else { "-link" })
        }
        [_, "got" | "light", _, "1"] => format!("{}-recovered", words[1]),
        _ => words.get(1).unwrap_or(&"").to_string(),
    }
}

#[derive(Default)]
struct Tally {
    agreed: u64,
    left: u64,
    differed: u64,
    lines: u64,
    whys: BTreeMap<String, u64>,
    /// How often each answer was compared.
    words: BTreeMap<String, u64>,
    acts: Acts,
}

impl Tally {
    fn take(&mut self, program: &Program, bytes: &[u8], name: &str, formed: bool) {
        let outcome = expected(program, bytes);
        self.acts.add(&outcome.acts);
        let (lines, mut found) = match program.run(bytes) {
            Ok(said) => {
                let (lines, found) = differ(&outcome, &said);
                let found = found.or_else(|| if formed { form::wrong(bytes, &said, program.counters) } else { None });
                (lines, found)
            }
            Err(how) => (0, Some(format!("the port broke: {how}"))),
        };
        self.lines += lines;
        for line in &outcome.lines[..(lines as usize).min(outcome.lines.len())] {
            *self.words.entry(word(line)).or_default() += 1;
        }
        if let Some(what) = found.take() {
            self.differed += 1;
            println!("{name}: differed: {what}");
            if formed && self.differed <= 5 {
                let small = reduce(program, bytes);
                let file = PathBuf::from(format!("{name}.dlt"));
                println!("  reduced to {} bytes ({}): {}", small.len(), file.display(), notation(&small));
                fs::write(file, small).unwrap();
            }
        } else if let Some((_, why)) = outcome.left {
            self.left += 1;
            *self.whys.entry(why).or_default() += 1;
        } else {
            self.agreed += 1;
        }
    }

    fn add(&mut self, other: Tally) {
        self.agreed += other.agreed;
        self.left += other.left;
        self.differed += other.differed;
        self.lines += other.lines;
        self.acts.add(&other.acts);
        for (why, n) in other.whys {
            *self.whys.entry(why).or_default() += n;
        }
        for (word, n) in other.words {
            *self.words.entry(word).or_default() += n;
        }
    }

    fn last(&self, what: &str, program: &Program) -> i32 {
        let words: Vec<String> = self.words.iter().map(|(word, n)| format!("{word} {n}")).collect();
        println!("answers compared: {}", words.join(", "));
        for (why, n) in &self.whys {
            println!("left the domain: {n} by {why}");
        }
        println!("{}", self.acts.line());
        println!(
            "{what}: {} agreed, {} left the domain (compared up to there), {} differed; {} lines compared, {}",
            self.agreed,
            self.left,
            self.differed,
            self.lines,
            if program.counters { "counters too" } else { "NO COUNTERS: the program writes none" }
        );
        i32::from(self.differed > 0)
    }
}

/// `formed`: the form of every answer is judged too, outside the domain as well, and traces that differ are reduced.
pub fn compare(path: &str, n: u64, seed: u64, only: Option<usize>, formed: bool) -> i32 {
    let program = Program::new(path);
    let mut all = Tally::default();
    for kind in (0..KINDS.len()).filter(|k| only.is_none_or(|o| o == *k)) {
        let mut tally = Tally::default();
        for index in 0..n {
            tally.take(&program, &generate::trace(kind, seed, index), &format!("{}-{seed}-{index}", KINDS[kind]), formed);
        }
        println!(
            "{:>9}: {} agreed, {} left the domain, {} differed; {} lines",
            KINDS[kind], tally.agreed, tally.left, tally.differed, tally.lines
        );
        all.add(tally);
    }
    all.last("compare", &program)
}

/// Short stretches of traces of all kinds, damaged in a few places.
pub fn mutate(path: &str, n: u64, seed: u64) -> i32 {
    let program = Program::new(path);
    let mut tally = Tally::default();
    let mut pool: Vec<Vec<Vec<u8>>> = Vec::new();
    let since = Instant::now();
    for index in 0..n {
        let mut dice = Dice::new(1_000, seed, index);
        if index % 20_000 == 0 {
            pool = (0..6 * KINDS.len()).filter_map(|i| parts(&generate::trace(i % KINDS.len(), dice.next(), index))).collect();
        }
        // The header and some records in a row, from the start or from further on.
        let base = &pool[dice.below(pool.len() as u64) as usize];
        let from = if dice.below(2) == 0 { 1 } else { 1 + dice.below(base.len() as u64) as usize };
        let length = 1 + dice.below(40) as usize;
        let mut parts = vec![base[0].clone()];
        parts.extend(base.iter().skip(from).take(length).cloned());
        let times = 1 + dice.below(6);
        // Half of them keep each record's kind and length, so that the trace goes on behind the damage.
        let framed = dice.below(2) == 0;
        for _ in 0..times {
            if framed {
                generate::turn_field(&mut dice, &mut parts);
            }
        }
        let mut bytes = parts.concat();
        for _ in 0..times {
            if !framed {
                generate::damage(&mut dice, &mut bytes);
            }
        }
        tally.take(&program, &bytes, &format!("mutate-{seed}-{index}"), true);
        if (index + 1) % 50_000 == 0 {
            println!("{} of {n}, {} differed, {} s", index + 1, tally.differed, since.elapsed().as_secs());
            let _ = std::io::stdout().flush();
        }
    }
    tally.last("mutate", &program)
}

fn parts(bytes: &[u8]) -> Option<Vec<Vec<u8>>> {
    let mut parts = vec![bytes.get(..trace::HEADER)?.to_vec()];
    let mut at = trace::HEADER;
    while at < bytes.len() {
        let length = trace::record(&bytes[at..]).map_or(bytes.len() - at, |(_, length)| length);
        parts.push(bytes[at..at + length].to_vec());
        at += length;
    }
    Some(parts)
}

/// Takes records out, ever fewer at a time, while the two still differ.
fn reduce(program: &Program, bytes: &[u8]) -> Vec<u8> {
    let wrong = |bytes: &[u8]| match program.run(bytes) {
        Ok(said) => differ(&expected(program, bytes), &said).1.is_some() || form::wrong(bytes, &said, program.counters).is_some(),
        Err(_) => true,
    };
    let Some(mut parts) = parts(bytes) else { return bytes.to_vec() };
    let mut size = parts.len() / 2;
    while size > 0 {
        let mut at = 1;
        while at < parts.len() {
            let end = (at + size).min(parts.len());
            let without: Vec<Vec<u8>> = parts[..at].iter().chain(&parts[end..]).cloned().collect();
            if wrong(&without.concat()) {
                parts = without;
            } else {
                at = end;
            }
        }
        size /= 2;
    }
    parts.concat()
}

/// A trace as DECISIONS.md writes it, if it is short.
pub fn notation(bytes: &[u8]) -> String {
    let Some(h) = trace::header(bytes) else { return "no header".to_string() };
    let mut records = Vec::new();
    let mut at = trace::HEADER;
    while at < bytes.len() && records.len() < 60 {
        let Some((record, length)) = trace::record(&bytes[at..]) else {
            records.push(format!("bad at {at}"));
            break;
        };
        at += length;
        records.push(trace::short(&record));
    }
    trace::short_trace(&h, &records)
}

/// Traces that stay in the domain, with what the Rust gives: traces.bin (each: length in 4 bytes, big-endian, then the file) and
/// lines.txt (each: a line `trace NAME`, then the lines). Of the kinds with long traces only a few are taken, of `pieces` none.
pub fn sample(directory: &Path, n: u64, seed: u64) {
    let (mut bin, mut text, mut count) = (Vec::new(), String::new(), 0);
    for (kind, name) in KINDS.iter().enumerate().filter(|(_, name)| **name != "pieces") {
        let long = ["steady", "unsteady", "edge", "history", "long"].contains(name);
        let (wanted, most) = if long { (2, 30_000) } else { (n, 2_500) };
        let mut taken = 0;
        for index in 0..100_000 {
            if taken == wanted {
                break;
            }
            let bytes = generate::trace(kind, seed, index);
            let outcome = machine::run(&bytes, Switches::all());
            if bytes.len() > most || outcome.left.is_some() {
                continue;
            }
            bin.extend((bytes.len() as u32).to_be_bytes());
            bin.extend(&bytes);
            text.push_str(&format!("trace {name}-{seed}-{index}\n{}", outcome.text(true)));
            taken += 1;
            count += 1;
        }
    }
    fs::create_dir_all(directory).unwrap();
    fs::write(directory.join("traces.bin"), bin).unwrap();
    fs::write(directory.join("lines.txt"), text).unwrap();
    println!("{count} traces");
}
