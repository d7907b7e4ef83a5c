# Figures of the gate, crate by crate, as a table in Markdown: lines of code, definitions, laws and proof files, and the wrong programs; and, from the log of a
# run, how it ended. `rt ci` tells no seconds of a crate or a wrong program, so there is no column for them.
#
#     { time .ci/run; } > log 2>&1       # bash: the last lines say how long it all took
#     python3 docs/gate.py log           # the table
#     python3 docs/gate.py               # the line counts alone; no log is needed
#     python3 docs/gate.py --into log    # the same, put into docs/GATE.md between its two marks (the log may be left out here too)
#
# Run it from the root of the repository. If the log does not say of each crate that it is proved and of each wrong program that it is refused, or tells of a
# failure, it says so, fails and leaves the page.
import glob
import re
import sys

PAGE = "docs/GATE.md"
BEGIN, END = "<!-- figures: begin -->\n", "<!-- figures: end -->\n"
# What a function's folder below proofs/ may hold.
PROOF_FILES = ("Answers.antt", "Invariants.antt", "Proof.antt")


def lines_in(pattern):
    total = 0
    for path in glob.glob(pattern, recursive=True):
        with open(path) as f:
            total += len(f.readlines())
    return total


def crates_listed():
    names = []
    for line in open("crates.txt"):
        head, colon, _ = line.split("#")[0].partition(":")
        if colon:
            # a name, and words such as `staticlib`
            names.append(head.split()[0])
    return names


class Crate:
    def __init__(self, name):
        room = "crates/" + name
        self.name = name
        self.code = lines_in(room + "/src/*.rt")
        self.definitions = lines_in(room + "/specs/*.antt")
        # a module of laws may be named as a proof file is: it stands in proofs/ itself
        self.laws = lines_in(room + "/proofs/*.antt")
        self.proofs = sum(lines_in(f"{room}/proofs/*/**/{file}") for file in PROOF_FILES)
        self.edits = sorted(re.sub(r".*/|\.edit$", "", path) for path in glob.glob(room + "/must-fail/*.edit"))
        # from the log: whether it is proved, and which wrong programs are refused
        self.proved = False
        self.refused = set()


class Log:
    def __init__(self, path, crates):
        self.whole = None
        self.last = None
        self.share = None
        self.wrong = []
        by_name = {c.name: c for c in crates}
        # a proof's own errors may hold bytes that are no text
        for line in open(path, errors="replace"):
            self.read(line.rstrip("\n"), by_name)
        self.judge(crates)

    def read(self, line, by_name):
        proved = re.match(r"rt: (\w+) (?:proved$|is kept: )", line)
        edit = re.match(r"rt: must-fail (\w+)/([\w.-]+)\.edit: refused, as it must be", line)
        share = re.match(r"rt: ok;.*?((?:done in this run: |every proof and must-fail edit was done in this run).*)", line)
        real = re.match(r"real\s+(?:(\d+)m)?([\d.]+)s?$", line)
        if re.match(r"rt: .*(NOT PROVED|NOT REFUSED|NOT TRIED|BAD EDIT)", line) or line.startswith("rt: FAILED:"):
            self.wrong.append(line[:200])
        if proved and proved.group(1) in by_name:
            by_name[proved.group(1)].proved = True
        elif edit and edit.group(1) in by_name:
            by_name[edit.group(1)].refused.add(edit.group(2))
        elif share:
            self.share = share.group(1)
        elif real:
            self.whole = 60 * int(real.group(1) or 0) + float(real.group(2))
        elif re.match(r"\d+ passed, \d+ failed$", line):
            self.last = line

    def judge(self, crates):
        for c in crates:
            if not c.proved:
                self.wrong.append(f"nothing says that {c.name} is proved")
            for edit in c.edits:
                if edit not in c.refused:
                    self.wrong.append(f"nothing says that the wrong program {c.name}/{edit} is refused")
        if self.last is None:
            self.wrong.append("no last line 'N passed, N failed'")
        elif not self.last.endswith(" 0 failed"):
            self.wrong.append(self.last)


def number(n):
    return f"{n:,}"


def row(cells):
    return "| " + " | ".join(cells) + " |\n"


def table(crates):
    text = row(["crate", "code", "definitions", "laws", "proof files", "wrong programs"])
    text += "|---|--:|--:|--:|--:|--:|\n"
    parts = [lambda c: c.code, lambda c: c.definitions, lambda c: c.laws, lambda c: c.proofs, lambda c: len(c.edits)]
    for c in crates:
        text += row([c.name, *(number(part(c)) for part in parts)])
    return text + row(["**all**", *(number(sum(map(part, crates))) for part in parts)])


def summary(crates, log):
    if not log:
        return f"{len(crates)} crates. How a run ended is not filled in: no log was given.\n"
    text = f"{len(crates)} crates. The run ended `{log.last}`"
    text += f", after {log.whole / 60:.1f} minutes" if log.whole else ""
    # what was kept from earlier runs was not proved again, so the minutes say nothing without this
    return text + (f" ({log.share}).\n" if log.share else ".\n")


def main(words):
    into = "--into" in words
    words = [w for w in words if w != "--into"]
    if len(words) > 1 or any(w.startswith("-") for w in words):
        sys.exit("usage: python3 docs/gate.py [--into] [LOG]")
    crates = [Crate(name) for name in crates_listed()]
    log = Log(words[0], crates) if words else None
    text = summary(crates, log) + "\n" + table(crates)
    good = not log or not log.wrong
    if into and good:
        page = open(PAGE).read()
        before, begin, rest = page.partition(BEGIN)
        _, end, after = rest.partition(END)
        if not begin or not end:
            sys.exit(f"{PAGE} has not the two marks")
        open(PAGE, "w").write(before + begin + "\n" + text + "\n" + end + after)
    elif not into:
        print(text, end="")
    if not good:
        sys.exit("\n".join(log.wrong))


main(sys.argv[1:])
