// The Rust receiver on traces. See README.md.
#![allow(dead_code)]
mod compare;
mod connection;
mod form;
mod generate;
mod machine;
mod options;
mod packet;
mod protocol;
mod statistics;
mod trace;

use std::{
    env, fs,
    io::{self, Write},
    path::Path,
    process::exit,
};

use machine::Switches;

fn usage() -> ! {
    eprintln!("oracle replay [--counters] [--without SWITCH].. FILE     01's lines, by the Rust");
    eprintln!("oracle generate KIND SEED N DIRECTORY                    traces KIND-SEED-0.dlt and on");
    eprintln!("oracle compare PROGRAM N SEED [KIND]                     N traces of each kind through PROGRAM and the Rust");
    eprintln!("oracle lines PROGRAM N SEED [KIND]                       the same, lines in the domain only");
    eprintln!(
        "oracle mutate PROGRAM N SEED                             N damaged traces through both, and the form of every answer"
    );
    eprintln!("oracle sample DIRECTORY N SEED                           a fixed sample: traces.bin and lines.txt");
    eprintln!("kinds: {}", generate::KINDS.join(" "));
    eprintln!("switches: {}", Switches::NAMES.join(" "));
    exit(2)
}

fn main() {
    machine::hush_calls();
    let words: Vec<String> = env::args().skip(1).collect();
    let number = |i: usize| words.get(i).and_then(|w| w.parse::<u64>().ok()).unwrap_or_else(|| usage());
    let word = |i: usize| words.get(i).unwrap_or_else(|| usage()).as_str();
    match words.first().map(String::as_str) {
        Some("replay") => replay(&words[1..]),
        Some("generate") => generate_files(word(1), number(2), number(3), Path::new(word(4))),
        Some("compare") => exit(compare::compare(word(1), number(2), number(3), words.get(4).map(|w| kind(w)), true)),
        Some("lines") => exit(compare::compare(word(1), number(2), number(3), words.get(4).map(|w| kind(w)), false)),
        Some("mutate") => exit(compare::mutate(word(1), number(2), number(3))),
        Some("sample") => compare::sample(Path::new(word(1)), number(2), number(3)),
        _ => usage(),
    }
}

fn kind(name: &str) -> usize {
    generate::KINDS.iter().position(|k| *k == name).unwrap_or_else(|| usage())
}

fn generate_files(name: &str, seed: u64, n: u64, directory: &Path) {
    fs::create_dir_all(directory).unwrap();
    for index in 0..n {
        fs::write(directory.join(format!("{name}-{seed}-{index}.dlt")), generate::trace(kind(name), seed, index)).unwrap();
    }
}

fn replay(words: &[String]) {
    let (mut switches, mut counters, mut file) = (Switches::all(), false, None);
    let mut words = words.iter();
    while let Some(word) = words.next() {
        match word.as_str() {
            "--counters" => counters = true,
            "--without" => match words.next().and_then(|name| switches.by_name(name)) {
                Some(switch) => *switch = false,
                None => usage(),
            },
            _ if word.starts_with('-') || file.is_some() => usage(),
            _ => file = Some(word),
        }
    }
    let Some(file) = file else { usage() };
    let bytes = fs::read(file).unwrap_or_else(|error| {
        eprintln!("{file}: {error}");
        exit(2)
    });
    let outcome = machine::run(&bytes, switches);
    if let Err(error) = io::stdout().write_all(outcome.text(counters).as_bytes()) {
        eprintln!("standard output: {error}");
        exit(2)
    }
    if let Some((record, why)) = outcome.left {
        eprintln!("left the domain at record {record}: {why}");
    }
}
