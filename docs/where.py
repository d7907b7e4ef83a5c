# Says which names in docs/WHERE.md do not exist: definitions, functions, theorems, wrong programs, headings of case programs, readings.
# Run it from the root of the repository. It prints each name that is missing, and fails if there is one.
import os
import re
import sys

text = open("docs/WHERE.md").read()
missing = []
count = 0


def read(path):
    return open(path).read() if os.path.exists(path) else None


def declared(room, body, name):
    if room != "src":
        plain = r"^\s*(unfoldable |abbrev )?pub (record |data )?" + re.escape(name) + r"[\s:(]"
        return re.search(plain, body, re.M)
    owner, _, last = name.rpartition("::")
    if owner and not re.search(r"impl " + owner + r"\b", body):
        return None
    return re.search(r"\b(fn|struct|enum) " + re.escape(last) + r"\b", body)


for row in text.splitlines():
    place = None
    for token in re.findall(r"`([^`]+)`", row):
        full = re.fullmatch(r"([a-z0-9_]+)/(specs|src|proofs)/(\w+)\.([\w:-]+)", token)
        more = re.fullmatch(r"\.([\w:-]+)", token)
        edit = re.fullmatch(r"edit ([a-z0-9_]+)/(\w+)", token)
        if full:
            place = full.group(1, 2, 3)
        if full or (more and place):
            crate, room, file = place
            name = full.group(4) if full else more.group(1)
            count += 1
            body = read(f"crates/{crate}/{room}/{file}.{'rt' if room == 'src' else 'antt'}")
            if body is None or not declared(room, body, name):
                missing.append(f"{crate}/{room}/{file}.{name}")
        elif more:
            missing.append(token + " (of no file)")
        elif edit:
            count += 1
            if not os.path.exists("crates/{}/must-fail/{}.edit".format(*edit.groups())):
                missing.append(token)
    for program, heading in re.findall(r"(case_\w+): ([^|;]+?) *(?=[|;]|$)", row.replace('"', "")):
        if row.startswith("crates") or "is the part under" in row:
            continue
        count += 1
        body = read(f"crates/{program}/stdout")
        if body is None or heading not in body.splitlines():
            missing.append(f"{program}: {heading}")

    for names, file in re.findall(r"the examples (.+?) in (crates/[\w/]+\.antt)", row):
        for name in re.findall(r"`([^`]+)`", names):
            count += 1
            if not re.search(r"^" + re.escape(name) + " :", read(file) or "", re.M):
                missing.append(f"{file} {name}")

# what a row quotes must stand in 01, so that it can be found there
paper = " ".join(open("docs/01-scope.md").read().replace("|", " ").split())
for row in text.split("## The three demands")[0].splitlines():
    for quote in re.findall(r'"([^"]+)"', row.split("|")[1]) if row.startswith('| "') else []:
        for piece in quote.split(" .. "):
            count += 1
            if " ".join(piece.split()) not in paper:
                missing.append("not in 01: " + piece)

readings = open("docs/DECISIONS.md").read()
for number in sorted(set(re.findall(r"\bA(\d+)\b", text)), key=int):
    count += 1
    if f"**A{number} (" not in readings:
        missing.append("A" + number)

for name in missing:
    print("missing:", name)
print(count, "names,", len(missing), "missing")
sys.exit(1 if missing else 0)
