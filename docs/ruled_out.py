# Says which names in docs/RULED_OUT.md do not exist (wrong programs, theorems of the ledger), which wrong programs are not on the page, and which calls have fewer
# than two. Run it from the root of the repository; it fails if a name is missing on either side.
import glob
import re
import sys

text = open("docs/RULED_OUT.md").read()
theorems = "".join(open(f"crates/ledger/proofs/{name}.antt").read() for name in ["RuledOut", "Bent"])
named = set(re.findall(r"`(\w+/\w+)`", text))
there = {re.sub(r"^crates/|must-fail/|\.edit$", "", path) for path in glob.glob("crates/*/must-fail/*.edit")}
wrong = [f"no such wrong program: {name}" for name in sorted(named - there)]
wrong += [f"not on the page: {name}" for name in sorted(there - named)]


def cited(cell):
    return [name for part in re.findall(r"theorems? ((?:`[\w-]+`(?:, )?)+)", cell) for name in re.findall(r"`([\w-]+)`", part)]


for name in sorted(set(cited(text))):
    if not re.search(r"^\s*pub " + re.escape(name) + " :", theorems, re.M):
        wrong.append(f"no such theorem: {name}")

calls = text.split("## Each public call")[1].split("## Parts that")[0]
for line in calls.splitlines():
    cells = [cell.strip() for cell in line.split("|")]
    if len(cells) == 4 and cells[1].startswith("`"):
        count = len(re.findall(r"`\w+/\w+`", cells[2])) + len(cited(cells[2]))
        if count < 2:
            print(f"{count} only: {cells[1]}")

for line in wrong:
    print(line)
print(len(there), "wrong programs,", len(wrong), "wrong names")
sys.exit(1 if wrong else 0)
