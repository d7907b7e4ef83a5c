//! The C header and this crate say the same: sizes, numbers, names and every parameter of every call.
use pursethistle::{raw, Counters, FIRST, LAST, LOSS_RUN};
use std::collections::BTreeMap;
use std::{fs, path::Path};

fn text(path: &str) -> String {
    fs::read_to_string(Path::new(env!("CARGO_MANIFEST_DIR")).join(path)).unwrap()
}

/// The header without its comments.
fn header() -> String {
    let text = text("../../include/pursethistle.h");
    let mut parts = text.split("/*");
    let first = parts.next().unwrap().to_string();
    parts.fold(first, |all, part| all + part.split_once("*/").unwrap().1)
}

/// What stands behind each `before` up to `after`, if the part has a `name between value`.
fn pairs(text: &str, before: &str, between: &str, after: &str) -> BTreeMap<String, String> {
    let parts = text.split(before).skip(1).filter_map(|part| part.split(after).next());
    parts.filter_map(|part| part.split_once(between)).map(|(a, b)| (a.trim().into(), b.trim().into())).collect()
}

fn map<const N: usize>(pairs: [(&str, usize); N]) -> BTreeMap<String, String> {
    pairs.into_iter().map(|(name, value)| (name.into(), value.to_string())).collect()
}

/// `PacketTooEarly` as `PACKET_TOO_EARLY`.
fn upper(name: &str) -> String {
    let words = name.split_inclusive(|_| true).map(|c| if c < "a" { format!("_{c}") } else { c.to_uppercase() });
    words.collect::<String>().trim_start_matches('_').into()
}

#[test]
fn sizes() {
    let mut defined = pairs(&header(), "#define PT_", " ", "\n");
    assert_eq!(defined.remove("LOSS_RUN"), Some(format!("{LOSS_RUN:#x}u")));
    assert_eq!(defined.remove("NO_RATE"), Some("(-1)".into()));
    defined.retain(|name, _| !name.contains('('));
    let sizes = map([
        ("HEAD_WORDS", raw::HEAD_WORDS),
        ("ANSWER_CELLS", raw::ANSWER_CELLS),
        ("COUNTERS", raw::COUNTERS),
        ("SLOT_WORDS", raw::SLOT_WORDS),
        ("PAYLOAD_BYTES", raw::PAYLOAD_BYTES),
        ("HISTORY_WORDS", raw::HISTORY_WORDS),
        ("CAPACITY_MAX", raw::CAPACITY_MAX),
        ("LAST", LAST as usize),
        ("FIRST", FIRST as usize),
    ]);
    assert_eq!(defined, sizes);
}

/// The names and numbers of an enum of the header, without a prefix.
fn numbered(name: &str, prefix: &str) -> BTreeMap<String, String> {
    let header = header();
    let body = header.split(&format!("enum {name} {{")).nth(1).unwrap().split('}').next().unwrap();
    let names = body.split(',').map(|line| line.trim().split_once(" = ").unwrap());
    names.map(|(name, number)| (name.strip_prefix(prefix).unwrap().into(), number.into())).collect()
}

#[test]
fn words() {
    let words = pairs(&text("src/raw.rs"), "pub const ", ": i64 = ", ";");
    assert_eq!((numbered("pt_word", "PT_WORD_"), words.len()), (words, 18));
}

#[test]
fn refusals() {
    let source = text("src/refusal.rs");
    let source = source.split("pub fn number").nth(1).unwrap().split("impl").next().unwrap();
    let numbers = pairs(source, "Refusal::", " => ", ",");
    let numbers: BTreeMap<_, _> = numbers.iter().map(|(name, n)| (upper(name.trim_end_matches(" { .. }")), n.clone())).collect();
    assert_eq!((numbered("pt_refusal", "PT_"), numbers.len()), (numbers, 15));
}

#[test]
fn counters() {
    let mut named = BTreeMap::new();
    for (i, (name, _)) in Counters::default().named().into_iter().enumerate() {
        named.insert(name.to_uppercase(), i.to_string());
    }
    assert_eq!(numbered("pt_counter", "PT_"), named);
}

/// A parameter of C as Rust declares it.
fn translated(parameter: &str) -> String {
    let constant = parameter.starts_with("const ");
    let (kind, name) = parameter.trim_start_matches("const ").split_once(' ').unwrap();
    let kind = match kind {
        "uint64_t" => "u64",
        "int64_t" => "i64",
        "uint32_t" => "u32",
        "uint8_t" => "u8",
        "size_t" => "usize",
        "bool" => "bool",
        _ => panic!("type {kind}"),
    };
    if let Some(name) = name.strip_prefix('*') {
        return format!("{name}: *{} {kind}", if constant { "const" } else { "mut" });
    }
    let (name, kind) = match (name.split_once('['), kind) {
        (Some((name, "PT_HEAD_WORDS]")), "u64") => (name, "Head"),
        (Some((name, "PT_ANSWER_CELLS]")), "i64") => (name, "Answer"),
        (Some((name, "PT_COUNTERS]")), "u64") => (name, "Counts"),
        (None, kind) => return format!("{name}: {kind}"),
        _ => panic!("parameter {parameter}"),
    };
    format!("{name}: {}{kind}", if constant { "&" } else { "&mut " })
}

/// Each call with its parameters, one to a line.
fn calls(text: &str, before: &str, after: &str, each: fn(&str) -> String) -> BTreeMap<String, Vec<String>> {
    let text = text.split_whitespace().collect::<Vec<_>>().join(" ");
    let parts = text.split(before).skip(1).map(|part| part.split_once(after).unwrap().0.split_once('(').unwrap());
    let listed = |list: &str| list.split(',').map(str::trim).filter(|p| !p.is_empty()).map(each).collect();
    parts.map(|(name, list)| (name.into(), listed(list))).collect()
}

#[test]
fn parameters() {
    let in_c = calls(&header(), "uint32_t pt_", ");", translated);
    let in_rust = calls(&text("src/raw.rs"), "pub fn pt_", ") -> u32;", str::to_string);
    assert_eq!(in_c.len(), 15);
    assert_eq!(in_c, in_rust);
}
