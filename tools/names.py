#!/usr/bin/env python3
"""Brings the names of definitions and lemmas to today's spelling: words in snake case, types and facts in camel case.

Run once, at the top, after the kit's port.py. A name that is declared in specs/ or proofs/ and begins with a small letter loses
its inner capitals (intervalOf: interval_of); each part of a lemma's name between hyphens does so by itself. Functions of src/,
exported names, strings, inputs and outputs keep their names. Where a definition and a lemma would fall together, the lemma keeps
its hyphen; KEPT lists them.
"""
import glob
import re

# Lemmas that the kit's script spelled with a low line, beside a definition of that name: (file, as it stands, as it is to be).
KEPT = [
    ("crates/cells/proofs/Injective.antt", "room_back", "room-back"),
    ("crates/paper/proofs/Injective.antt", "room_back", "room-back"),
    ("crates/cells/proofs/Examples.antt", "made_cells", "made-cells"),
    ("crates/kept/proofs/DataKept.antt", "got_in", "got-in"),
    ("crates/inplace/proofs/Nexts.antt", "kept_next", "kept-next"),
    ("crates/ledger/proofs/RuledOut.antt", "by_number", "by-number"),
    ("crates/packing/proofs/Undo.antt", "flag_word", "flag-word"),
    ("crates/ledger/proofs/Shown.antt", "same_bytes", "same-bytes"),
    ("crates/views/proofs/Lists.antt", "entries_from", "entries-from"),
]

# Definitions with a hyphen, which is a lemma's spelling.
WORDS = ["by-words", "by-cause", "pop-refusal", "push-refusal", "first-call", "first-event", "late-call", "written-to", "words-to"]

WORD = r"(?<![A-Za-z0-9_'\-·.])%s(?![A-Za-z0-9_'\-·])"
# A declaration at any depth: a name, arguments perhaps, a colon.
DECLARED = re.compile(
    r"^\s*(?:(?:unfoldable|abbrev|pub|data|record|opaque|private) )*([^\s:(){}]+)(?:\s*\([^()]*\)|\s*\{[^{}]*\})*\s*:\s", re.M)


def snake(name):
    parts = []
    for part in name.split("-"):
        if part[:1].islower():
            part = re.sub(r"([a-z0-9])([A-Z])", lambda m: m.group(1) + "_" + m.group(2).lower(), part)
        parts.append(part)
    return "-".join(parts)


def main():
    antt = sorted(glob.glob("crates/**/*.antt", recursive=True))
    files = antt + sorted(glob.glob("crates/*/src/*.rt")) + sorted(glob.glob("crates/*/must-fail/*.edit"))
    texts = {f: open(f).read() for f in files}
    for f, old, new in KEPT:
        texts[f] = re.sub(WORD % re.escape(old), new, texts[f])
    names = {}
    for f in antt:
        for m in DECLARED.finditer(texts[f]):
            name = m.group(1)
            if name in WORDS:
                names[name] = name.replace("-", "_")
            elif re.match(r"[a-z]", name) and re.search(r"[a-z0-9][A-Z]", name) and snake(name) != name:
                names[name] = snake(name)
    # Names of the generated modules are the toolchain's.
    names = {n: s for n, s in names.items() if not n.startswith(("Need-", "invariant-", "decreases-"))}
    token = re.compile(r"[A-Za-zλ][A-Za-z0-9_'\-·₀-₉]*")
    count = 0
    for f in files:
        # Strings in Rattle keep their words.
        pieces = re.split(r'("(?:[^"\\]|\\.)*")', texts[f]) if f.endswith(".rt") else [texts[f]]
        out = "".join(p if i % 2 else token.sub(lambda m: names.get(m.group(0), m.group(0)), p) for i, p in enumerate(pieces))
        if out != open(f).read():
            open(f, "w").write(out)
            count += 1
    print(f"{len(names)} names, {count} files")
    for n, s in sorted(names.items()):
        print(f"  {n} -> {s}")


main()
