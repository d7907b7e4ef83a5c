# A wrong program may change several functions at once; its .edit then names each in a line
# '# refuses: CRATE::MODULE::FUNCTION'. Refused as a whole it would also be if one of them were accepted, and rt tells
# no more than the first thing that it refused. So this makes each such edit in a copy of the crate and of those below
# it, has `rt ci` prove that copy, where what did not change is not proved again, and looks for each function's own line
# in what it says. Run it from the root of the repository after `rt ci`. The repository itself is only read, and the
# copies are removed.
import glob
import os
import re
import shutil
import subprocess
import sys
import tempfile


def needed(name):
    """The lines of crates.txt, by their crates, of the crate and of all that it stands on."""
    lines = {}
    for line in open("crates.txt"):
        head, colon, below = line.split("#")[0].partition(":")
        if colon:
            lines[head.split()[0]] = (line, below.split())
    found, left = {}, [name]
    while left:
        crate = left.pop()
        if crate in lines and crate not in found:
            found[crate] = lines[crate][0]
            left += lines[crate][1]
    return found


def put(edit, folder):
    """Makes the edit in the crate's folder, by rt's rules: each old text stands once in the file as it is by then."""
    path = old = None
    for line in open(edit).read().split("\n"):
        if line.startswith("file: "):
            path = folder + "/" + line[len("file: ") :].strip()
        elif line.startswith("old: "):
            old = line[len("old: ") :]
        elif line.startswith("new:"):
            new = re.sub(r"\A ", "", line[len("new:") :])
            text = open(path).read()
            if text.count(old) != 1:
                sys.exit(f"{edit}: {old!r} stands {text.count(old)} times in {path}, and not once")
            open(path, "w").write(text.replace(old, new))


def log_of(crate, edit):
    """What `rt ci` says of the crate with this edit."""
    with tempfile.TemporaryDirectory(prefix="refused-") as room:
        lines = needed(crate)
        for name in lines:
            # no wrong program is tried again there
            left_out = shutil.ignore_patterns("out", "must-fail")
            shutil.copytree(f"crates/{name}", f"{room}/crates/{name}", ignore=left_out)
        open(f"{room}/crates.txt", "w").write("".join(lines.values()))
        if os.path.exists("HANDLES"):
            shutil.copy("HANDLES", room)
        os.mkdir(f"{room}/.git")
        put(edit, f"{room}/crates/{crate}")
        said = ""
        # `rt ci` asks for the layout first
        for words, folder in ((["rt", "fmt"], f"{room}/crates/{crate}"), (["rt", "ci"], room)):
            how = {"stdin": subprocess.DEVNULL, "stdout": subprocess.PIPE, "stderr": subprocess.STDOUT}
            said += subprocess.run(words, cwd=folder, text=True, errors="replace", **how).stdout
        return said


def by_itself(verdict):
    """Whether a function's line refuses the function, and not only since a function that it calls is refused."""
    if verdict == "not proved":
        return True
    kind, colon, reasons = re.match(r"(not proved|no proof)([:;] )?(.*)", verdict).groups()
    return bool(colon) and any(not why.startswith(("it calls ", "expected ")) for why in reasons.split("; "))


wrong = 0
asked = 0
for edit in sorted(glob.glob("crates/*/must-fail/*.edit")):
    names = re.findall(r"^# refuses: (\S+)$", open(edit).read(), re.M)
    if not names:
        continue
    log = log_of(edit.split("/")[1], edit)
    verdicts = dict(re.findall(r"^fn (\S+): ((?:not proved|no proof).*)$", log, re.M))
    before = wrong
    for function in names:
        asked += 1
        if function not in verdicts or not by_itself(verdicts[function]):
            wrong += 1
            line = verdicts.get(function, "none that refuses it")
            print(f"{edit}: nothing refuses {function} by itself; its line: {line}")
    if wrong > before and not verdicts:
        print("the last that rt said:", *log.splitlines()[-5:], sep="\n  ")
print(f"refused.py: {asked} functions in compound wrong programs, {wrong} not refused")
sys.exit(1 if wrong else 0)
