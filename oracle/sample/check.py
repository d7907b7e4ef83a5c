#!/usr/bin/env python3
"""Replays the sample: check.py [--lines] PROGRAM [WORD ..]. Fails if any trace gives other lines. README.md says where it stands.
With --lines the counters are left out, for a program that writes none."""
import pathlib
import shutil
import subprocess
import sys

HERE = pathlib.Path(__file__).resolve().parent
CASE = HERE.parent.parent / "crates" / "case_sample"


def answers():
    """Each file's name with its lines; a name ends in .dlt, which no line of an answer does."""
    found = []
    for line in (CASE / "stdout").read_text().splitlines():
        if line.endswith(".dlt"):
            found.append((line, []))
        else:
            found[-1][1].append(line)
    return found


def main(words):
    options = ["--counters"]
    if words[:1] == ["--lines"]:
        words, options = words[1:], []
    if not words:
        sys.exit(__doc__)
    if not shutil.which(words[0]):
        sys.exit(f"{words[0]}: no such program")
    wanted, differed = answers(), 0
    for file, lines in wanted:
        if not options:
            lines = [line for line in lines if not line.startswith("counters ")]
        ran = subprocess.run(words + options + [str(CASE / "data" / file)], capture_output=True, text=True)
        given = ran.stdout.splitlines()
        if given != lines:
            differed += 1
            both = zip(lines + ["nothing"], given + ["nothing"])
            print(file, "differed:", next(((a, b) for a, b in both if a != b), "in length"))
    print(f"sample: {len(wanted) - differed} agreed, {differed} differed")
    return 1 if differed else 0


if __name__ == "__main__":
    sys.exit(main(sys.argv[1:]))
