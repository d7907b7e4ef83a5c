#!/usr/bin/env python3
"""take.py DIRECTORY: puts what `oracle sample DIRECTORY N SEED` wrote there (traces.bin, lines.txt) where the gate has it: crates/case_sample (a file
a trace, their names in args, the names and lines in stdout, the counters' lines too)."""
import pathlib
import sys

HERE = pathlib.Path(__file__).resolve().parent
CASE = HERE.parent.parent / "crates" / "case_sample"


def traces(held):
    at = 0
    while at < len(held):
        length = int.from_bytes(held[at:at + 4], "big")
        yield held[at + 4:at + 4 + length]
        at += 4 + length


def answers(text):
    for part in ("\n" + text).split("\ntrace ")[1:]:
        name, *lines = part.rstrip("\n").split("\n")
        yield name, lines


def main(directory):
    given = list(traces((directory / "traces.bin").read_bytes()))
    wanted = list(answers((directory / "lines.txt").read_text()))
    assert len(given) == len(wanted)
    for old in (CASE / "data").glob("*.dlt"):
        old.unlink()
    names, out = ["--counters"], []
    for trace, (name, lines) in zip(given, wanted):
        file = name + ".dlt"
        (CASE / "data" / file).write_bytes(trace)
        names.append(file)
        out += [file] + lines
    (CASE / "args").write_text("\n".join(names) + "\n")
    (CASE / "stdout").write_text("\n".join(out) + "\n")


if __name__ == "__main__":
    if len(sys.argv) != 2:
        sys.exit(__doc__)
    main(pathlib.Path(sys.argv[1]))
