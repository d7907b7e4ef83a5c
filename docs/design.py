#!/usr/bin/env python3
"""Counts the older forms in crates/*/src, for docs/DESIGN-PASS.md.

    docs/design.py [-v] [COMMIT]     at a commit, or as the files lie; -v names each place

A row is one form, behind the number of its point in docs/DESIGN-PASS.md. A place is a line that matches, outside comments."""
import re
import subprocess
import sys
from pathlib import Path

ROOT = Path(__file__).resolve().parent.parent
PRINTS = r"crates/(case_\w+|reason|replaying|pursethistle)/"

# Cases that say `none`, `not yet` or `refused`. They are places where the enum has other cases too: an error enum has not.
NONE = r"Unset|Nothing|Unknown|NotHeld|OutOfRange|Short|Worn|ListShort|Refused\(u(?:32|64)\)"
REFUSED = (r"DriftRange|Bad|BufferFull|PacketTooEarly \{.*\}|PacketTooLate|DiscardedDuplicate|OutShort|HeadBad|AreaShort"
           r"|Clock(?:Range|Back)|BadNumber|PayloadLong|FasnWorn|BadSetting|Push\(PushRefusal\)")

# (point, what, pattern, files)
FORMS = [
    (1, "cases of an enum of values that say `none`, `not yet` or `refused`", None, None),
    (1, "a flag or a number beside the value that it is about",
     r"^\s*(pub )?(light|received|going|known|asked): bool,|^\s*(pub )?refusal: u32,|^\s*answer: isize,"
     r"|^\s*pub opened: Opened,|-> isize|Cut \{ have: usize, need: usize \}|^\s*file: usize,$", None),
    (1, "0 for `no refusal`, `none` or `standard input`",
     r"\b(n|k|refusal|made\.refusal|size|a\.file|got\.answer|k\.count|walk\.count|need) (==|<|<=) 0\b|0 < m\.packets",
     None),
    (1, "a refusal by its number",
     r"\bthen\(\w+, |\bRefused\((n|_|\d+|u32|u64)\)|put_refused\(rt, \w+\)|\brefusal: u32|fn \w+_refusal\(|fn then\(|\bn <= 9\b"
     r"|n == 10\b", None),
    (1, "kinds by number, but for the one place that tells a byte's kind", r"^\s*[1-8] => |const FIXED|kind == 1",
     r"(?!crates/(dlt/src/kind|head/src/refusal|case_clock))"),
    (2, "functions and structs that differ from a twin in a type, a size or a constant",
     r"pub struct \w+Counted\b|pub struct (Handled|Given|Reported|FullAcked|Ack2ed|Clocked|Cleared)\b|fn \w+_(cells|refusal)\("
     r"|fn (none|one|two|three|eight)\(|fn (tail[1-4]|signed[0-2]|rates[1-3]|whole_one|whole_two|two_whole|bare|pair|range)\(out"
     r"|fn (tail[1-4]|rates[1-3]|room_rates|figures)\($|fn refuse_(report|history|drop|show|clock|head|push|pop)\("
     r"|fn (words|bytes)_short\(|fn window_(ok|in_range)\(|fn (slot|payload|history)_area\("
     r"|fn (too_long|longest|acknowledge_next)\(|fn distance\(", None),
    (3, "loops that count an index", r"^\s*while ", None),
    (4, "cases told apart by a list of fields that are not used", r"\b\w+: _\b", None),
    (4, "wrapping sums by a function of their own", r"std::num::wrapping_", None),
    (4, "pieces of text and numbers put one by one", r"\b(put|around|say)(_\w+)?\((rt|err|to|out)\b", PRINTS),
    (4, "conversions with a function of their own",
     r"fn (wide|wider|small|same|big|size|flag|one_if|of_size|of_number|of_flag|whole|of_whole|twos|join2|join4|magnitude"
     r"|double)\((?!out|r:|number)|fn number\(w: u64", None),
    (4, "casts of a number into a line's value", r"Value::Plain\(\w+(\.\w+)? as|\w as u64,$|\w as u64\)", r"crates/lines/"),
    (4, "fields copied one by one", r"^\s*(\w+): (self|w|c|s|h|k|shifted|t)\.\1,$", None),
    (4, "`if .. {} else { .. }`", r"\{\} else \{", None),
    (5, "a data packet's four numbers as parameters", r"^\s*location: u32,$", r"(?!.*/(push|record|entry)\.rt)"),
    (5, "a lent area as a parameter", r"^\s*(words|bytes|area|out|list|line|hand|text|slots|payloads): &(mut )?\[", None),
    (6, "words in a struct of three, two arrays beside one another", r"pub struct Words\b|^\s*pub sizes: \[", None),
    (7, "a step chosen by a switch", r"\bWant::\w+", None),
]


def mixed(text):
    """The NONE and REFUSED cases of the enums that have other cases too, as (line, text)."""
    found = []
    whole = "\n".join(text)
    for m in re.finditer(r"^( *)(?:pub )?enum \w+ \{\n(.*?)^\1\}", whole, re.S | re.M):
        first = whole[:m.start(2)].count("\n") + 1
        indent = m.group(1) + "    "
        cases = [(first + i, line.strip()) for i, line in enumerate(m.group(2).split("\n"))
                 if line.startswith(indent) and re.match(r"[A-Z]", line[len(indent):])]
        none = [c for c in cases if re.fullmatch(f"(?:{NONE}|{REFUSED}),?", c[1])]
        if len(none) < len(cases):
            found += none
    return found


def lines(commit):
    if commit is None:
        for path in sorted(ROOT.glob("crates/*/src/*.rt")):
            yield str(path.relative_to(ROOT)), path.read_text(encoding="utf-8").splitlines()
        return

    def run(*words):
        return subprocess.run(("git", "-C", str(ROOT)) + words, check=True, capture_output=True, text=True).stdout

    for path in run("ls-tree", "-r", "--name-only", commit, "crates").split():
        if re.fullmatch(r"crates/\w+/src/\w+\.rt", path):
            yield path, run("show", f"{commit}:{path}").splitlines()


def main(words):
    loud = "-v" in words
    words = [w for w in words if w != "-v"]
    files = list(lines(words[0] if words else None))
    for point, what, pattern, only in FORMS:
        found = []
        for path, text in files:
            if only and not re.match(only, path):
                continue
            if pattern is None:
                found += [f"{path}:{i}: {line}" for i, line in mixed(text)]
                continue
            found += [f"{path}:{i}: {line.strip()}" for i, line in enumerate(text, 1)
                      if not line.lstrip().startswith("//") and re.search(pattern, line)]
        print(f"{point} {len(found):4} {what}")
        if loud:
            print("".join(f"       {place}\n" for place in found), end="")


main(sys.argv[1:])
