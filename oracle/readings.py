#!/usr/bin/env python3
"""Small traces with the lines that document 01 wants of them: 01's worked example, the readings of docs/DECISIONS.md that a trace can
show (T and C) and the entries of docs/DIFFERENCES.md. Runs them through a program.

    readings.py [--lines] PROGRAM [WORD ..]   for instance: readings.py oracle/target/release/oracle replay
                                                            readings.py target/bin/replay
    readings.py --write DIRECTORY             writes each trace as NAME.dlt

The program is called with the words, --counters where counters are asked for, and the file. With --lines no counters are asked for. The oracle says on its error output where a
trace leaves the Rust's domain; what it answers from there on need not be 01's. Fails if any other answer differed.
"""
import pathlib
import shutil
import struct
import subprocess
import sys
import tempfile


def header(start, latency, dropping, first, capacity):
    return b"DLT" + struct.pack(">HQIBIH", 1, start, latency, dropping, first, capacity)


def record(text):
    kind, *numbers = text.split()
    n = [int(x) for x in numbers]
    if kind == "D":
        return struct.pack(">BQIIBIH", 1, *n) + b"x" * n[5]
    if kind in "PLF":
        return struct.pack(">BQ", 2 + "PLF".index(kind), *n)
    if kind == "A":
        return struct.pack(">BQI", 5, *n)
    if kind == "R":
        return struct.pack(">BII", 6, *n)
    if kind == "K":
        return struct.pack(">BQI", 7, *n)
    return b"\x08"


def trace(text):
    """The notation of DECISIONS.md: start latency drop first capacity | records; `n x (..)` or `n x R` repeats."""
    head, _, rest = text.partition("|")
    out = header(*(int(x) for x in head.split()))
    for part in rest.split(";"):
        part = part.strip()
        times = 1
        if " x " in part:
            count, _, part = part.partition(" x ")
            times = int(count)
        if part:
            out += record(part) * times
    return out


def joined(head, records):
    return trace(head + " | " + "; ".join(records))


# Name, trace, mode, lines. "whole": all lines with their numbers; "ends": the last lines before the end line, without their numbers;
# "end": the last line; "gives": all lines before the end line, without their numbers; "counters": parts of the counters' line.
CASES = []


def case(name, given, mode, *lines):
    CASES.append((name, given if isinstance(given, bytes) else trace(given), mode, list(lines)))


case(
    "P1",
    "0 0 1 2147483646 4 | D 1000 2147483646 0 3 0 10; D 2000 0 0 3 1000 10; D 3000 2147483647 0 3 500 10; D 3100 0 0 3 1000 10; P 4000",
    "whole",
    "1 got 2147483647 0",
    "2 loss 2147483647 2147483647",
    "3 got 1 1",
    "4 refused 10",
    "5 message 0 10 1",
    "end 5 1 2147483647 2",
)
case("P2", "0 0 0 0 4 | D 0 0 0 3 0 0; F 0; A 18000 1", "ends", "rtt 11000 2500")
case(
    "P3-P6",
    "0 0 0 0 4 | D 0 1 0 3 0 0; L 20000; L 20001; L 50001; L 50002",
    "gives",
    "loss 0 0",
    "none",
    "report 0",
    "none",
    "report 0",
)
case("P7", "0 100000 1 0 4 | D 100000 1 0 3 100000 0; P 204999", "ends", "none")
case("P8", "0 100000 1 0 4 | D 100000 1 0 3 100000 0; P 205000", "ends", "late 0 2 5000")

case("A1", "0 0 1 0 4 | K 1000 400; D 1000 0 0 3 400 0; P 1000", "ends", "message -200 0 1")


def pairs(gap):
    records = ["D 0 0 0 1 0 0", f"D {gap} 1 0 1 0 0", f"P {gap}"]
    now = gap
    for n in range(1, 16):
        now += 100
        records += [f"D {now} {16 * n - 1} 0 1 0 0", f"D {now} {16 * n} 0 1 0 0"]
        now += gap
        records += [f"D {now} {16 * n + 1} 0 1 0 0", f"P {now}"]
    return joined("0 0 1 0 32", records + [f"F {now}"])


case("A4", pairs(5), "ends", "ack 1 242 10000 1000 32 - - 200000")
for median in (10, 20, 40, 80, 160, 320):
    CASES.append((f"A4-{median}", pairs(median), "last-number", [str(1_000_000 // median)]))
case("A6", "0 0 0 0 4 | D 0 0 0 3 0 0; F 0; A 0 1", "counters", "rx_ack2=1", "rx_ack2_errors=1")
case("A6b", "0 0 0 0 4 | D 0 0 0 3 0 0; F 0; A 0 1; A 0 2", "counters", "rx_ack2=2", "rx_ack2_errors=1")
case("A7", "0 0 1 0 4 | D 0 0 0 3 2147483648 0; P 0", "ends", "message -2147483648 0 1")
case("A7b", "0 0 1 0 4 | K 0 2147483648", "gives", "none")
case("A8", "0 0 0 0 4 | D 0 0 0 3 0 0; F 0; A 0 0", "ends", "none")
case("A8b", "0 0 0 0 4 | D 0 0 0 3 0 0; F 0; A 0 0", "counters", "rx_ack2=1", "rx_ack2_errors=0")
case("A9", "0 0 1 0 4 | D 0 1 0 3 0 0; P 2147483648", "ends", "late 0 2 2147483647")
case("A9-below", "0 2 1 0 4 | D 0 1 0 1 2147483647 0; P 0", "ends", "late 0 2 -2147483648")
case("A9-rtt", "0 0 0 0 4 | D 0 0 0 3 0 0; F 0; A 2147483648 1", "ends", "rtt 268444205 469760610")
case(
    "A9-rtt2",
    "0 0 0 0 4 | D 0 0 0 3 0 0; F 0; A 2147483648 1; D 2147483648 1 0 3 0 0; F 2147483648",
    "ends",
    "ack 2 2 268444205 469760610 2 - - -",
)
case(
    "A9-k",
    joined(
        "0 0 0 0 4",
        ["D 0 0 0 3 0 0", "F 0", "80 x A 0 1", "D 0 2 0 3 0 0"]
        + [f"L {t}" for t in range(1, 65535)]
        + ["A 65534 1", "L 536862720", "L 536862721", "L 536870911"],
    ),
    "ends",
    "report 1",
    "none",
    "none",
)
case("A10", "0 0 0 0 8 | D 0 2 0 3 0 0; L 20001", "ends", "report 2147483648 1")


def drifts(values, base=1_000_000):
    """A first drift of 0 at `base`, then one record a drift: with reading and reference both at `base`, drift = reference stamp - stamp."""
    return joined("0 0 1 0 4", ["K 0 0"] + [f"K {base} {(base - d) % 2**32}" for d in values])


case("A76", "0 0 1 0 4 | K 0 0; " + "; ".join(["K 10000 9995; K 10000 10005"] * 500), "ends", "adjusted 0 5")
case("A76b", "0 0 1 0 4 | K 0 0; " + "; ".join(["K 10000 4999; K 10000 15001"] * 500), "ends", "unsteady 5001")
case("A77", "0 0 0 0 4 | D 0 0 0 3 0 4", "counters", "rx_bytes=20")
case("A21", "0 0 0 0 4 | P 9; R 0 0; C; P 8", "gives", "none", "gone 0", "clear", "refused 4")
case("A22", "0 9 0 0 4 | P 7; P 6", "gives", "none", "refused 4")
case("A22b", "0 0 0 0 4 | D 5 0 0 3 0 0; D 9 0 0 3 0 0; P 7", "gives", "got 1 0", "refused 10", "message 0 0 1")
case("A23", "0 0 0 0 4 | P 7; P 7", "gives", "none", "none")
case("A24", "0 0 0 0 4 | P 9; D 5 0 0 4 0 0", "ends", "refused 4")
case("A25", "0 0 0 0 4 | A 0 4294967295", "gives", "none")
case(
    "A26",
    "0 0 0 2147483646 4 | D 0 0 0 3 0 0; R 2147483646 2147483647; R 0 2147483648",
    "gives",
    "loss 2147483646 2147483647",
    "gone 2",
    "refused 5",
)
case("A27", "0 0 0 2147483647 2 | D 0 2147483647 0 3 0 0; D 0 0 0 3 0 0; D 0 1073741823 0 3 0 0", "ends", "refused 8 0 1073741823")
case("A28", "0 0 0 0 4 | D 0 1073741824 0 3 0 0; D 0 1073741823 0 3 0 0", "gives", "refused 9", "refused 8 4 1073741824")
case("A34", "0 0 0 0 8 | D 0 0 0 3 0 0; D 0 1 0 3 0 0; C; D 0 2 0 3 0 0; F 0", "ends", "loss 0 1", "ack 1 3 10000 1000 5 - - -")
case("A35", "0 0 0 0 8 | D 0 0 0 3 0 0; D 0 1 0 3 0 0; C; D 0 0 0 3 0 0; P 0", "end", "end 5 2 1 0")
case(
    "A35-back",
    "0 0 1 0 8 | D 0 0 0 3 0 0; D 0 1 0 3 0 0; D 0 2 0 3 0 0; D 0 3 0 3 0 0; C; D 0 0 0 2 0 0; D 5000 4 0 3 5000 0; F 5000; P 5000; F 5000",
    "ends",
    "ack 1 5 10000 1000 3 - - -",
    "late 0 1 5000",
    "none",
)
case("A36", "0 100 1 0 4 | D 0 1 0 1 50 0; P 0", "ends", "late 0 2 -150")
case("A37", "0 0 1 0 8 | D 0 1 0 1 0 0; D 0 3 0 3 0 0; P 0", "ends", "late 0 2 0")
case("A37b", "0 0 1 0 8 | D 0 1 0 1 5 0; D 0 2 1 1 9 0; P 0", "ends", "late 0 3 -5")
case("A38", "5 0 1 0 8 | D 5 0 0 3 9 1; P 14; D 14 1 0 3 0 0; P 14", "gives", "got 1 0", "message 14 1 1", "got 2 0", "message 14 0 1")
case("A39", "0 0 0 0 8 | D 0 0 7 2 0 0; D 0 1 7 3 0 0; P 0", "ends", "message 0 0 2")
case("A39b", "0 0 0 0 8 | D 0 0 7 2 0 0; D 0 1 8 3 0 0; P 0", "ends", "none")
case("A40", "0 0 0 0 8 | D 0 3 0 3 0 0; R 0 1073741823", "ends", "gone 0")
case("A40b", "0 0 0 0 8 | D 0 3 0 3 0 0; R 0 1073741822", "ends", "gone 3")
case("A40c", "0 0 0 0 8 | D 0 3 0 3 0 0; R 1073741824 1", "ends", "gone 2")
case("A41", "0 0 0 0 8 | D 0 3 0 3 0 0; R 2 0", "ends", "gone 0")
case("A44", "0 0 0 2147483647 8 | D 0 1 0 3 0 0; L 20001", "ends", "report 4294967295 0")
case("A44b", "0 0 0 0 8 | D 0 3 0 3 0 0; D 0 1 0 3 0 0; L 20001", "ends", "report 0 2")
case(
    "A47",
    joined(
        "0 0 0 0 32",
        [r for n in range(61) for r in (f"D 0 {n} 0 3 0 0", "P 0")]
        + ["D 0 61 0 3 0 0", "D 0 62 0 3 0 0", "C", "D 0 63 0 3 0 0", "D 0 64 0 3 0 0"],
    ),
    "ends",
    "clear",
    "loss 61 62",
    "light 65 0",
)
case("A49", "0 0 0 7 4 | D 0 7 0 3 0 0; F 0; A 0 1; F 20000", "ends", "rtt 8750 2937", "none")
case("A50", "0 0 0 0 4 | D 0 0 0 3 0 0; F 0; C; D 0 0 0 3 0 0; D 0 1 0 3 0 0; F 0", "ends", "ack 1 2 10000 1000 2 - - -")
case("A51", "0 0 0 0 4 | D 0 0 0 3 0 0; F 0; F 20000; F 40001; A 40001 1; A 40001 2", "ends", "none", "rtt 11250 2937")
full = joined("0 65535000 0 0 4", ["D 0 0 0 3 0 0"] + [f"F {20000 * i}" for i in range(1025)] + ["A 20480000 1", "A 20480000 2"])
case("A52", full, "ends", "none", "rtt 2566250 4474187")
case(
    "A54",
    "0 65535000 0 0 4 | D 0 0 0 3 0 0; F 0; 6 x A 2147483647 1; D 2147483647 1 0 3 0 0; 2 x F 2147483647",
    "ends",
    "ack 2 2 1183707526 1017751086 2 - - -",
    "none",
)
case("A54b", "0 0 0 0 8 | D 0 0 0 3 0 0; F 0; 6 x A 2147483647 1; D 2147483647 2 0 3 0 0; L 2147483648", "ends", "none")
case("A55", joined("0 0 0 0 32", [f"D {100 * i} {i} 0 3 0 0" for i in range(17)] + ["F 1600"]), "ends", "ack 1 17 10000 1000 15 10000 0 -")
case("A56", joined("0 0 0 0 32", [f"D {3 * i} {i} 0 3 0 1" for i in range(17)] + ["F 48"]), "ends", "ack 1 17 10000 1000 15 333333 333333 -")


def spans():
    """A57: each pair spans a gap. Popping needs late dropping here, since the numbers between are lost."""
    records, now = [], 0
    for j in range(16):
        if j:
            now += 10_000
            records += [f"D {now} {32 * j - 1} 0 1 0 0", f"P {now}"]
        records += [f"D {now} {32 * j} 0 1 0 0", f"D {now} {32 * j + 16} 0 1 0 0"]
        now += 8
        records += [f"D {now} {32 * j + 17} 0 1 0 0", f"P {now}"]
    return joined("0 0 1 0 32", records + [f"F {now}"])


CASES.append(("A57", spans(), "last-number", ["125000"]))
case(
    "A58",
    joined(
        "0 0 0 0 32",
        [f"D {100 * i} {i} 0 3 0 0" for i in range(16)] + ["D 1550 0 0 3 0 0", "D 1600 16 0 3 0 0", "F 1600"],
    ),
    "ends",
    "refused 10",
    "got 17 0",
    "ack 1 17 10000 1000 15 10000 0 -",
)
case("A59", "0 0 1 0 4 | K 0 0; 1000 x K 4294967296 0", "ends", "adjusted 0 0")
case("A60", "5 0 1 0 4 | K 7 2; D 7 0 0 3 2 0; P 7", "ends", "message 7 0 1")
case("A61", "0 0 1 0 4 | 1001 x K 0 0", "gives", *(["none"] * 1000 + ["adjusted 0 0"]))
case("A62", "0 0 1 0 4 | K 0 0; 999 x K 0 1; K 0 0", "ends", "adjusted 0 0")
case("A64", drifts([5000, -5000] * 499 + [5001, -5001]), "ends", "adjusted 0 5000")
case("A66", "0 0 0 0 4 | A 5 1; A 3 1", "counters", "rx_ack2=1")
case(
    "A67",
    "0 0 0 0 1 | D 0 0 0 3 0 4; D 0 0 0 3 0 4; D 0 1 0 3 0 4",
    "counters",
    "rx_data=3",
    "rx_bytes=60",
    "rx_unique_data=1",
    "rx_unique_bytes=20",
    "rx_retransmit_data=0",
    "rx_dropped_data=1",
    "rx_dropped_bytes=20",
)
case("A67b", "0 0 0 0 8 | D 0 3 0 3 0 4; D 0 1 0 3 0 4; R 0 2", "counters", "rx_unique_data=1", "rx_retransmit_data=1", "rx_dropped_data=2", "rx_dropped_bytes=0")
case("A68", header(0, 0, 0, 0, 4) + b"\x02", "whole", "bad 24")
case("A69", header(0, 0, 0, 0, 4) + struct.pack(">BQIIBIH", 1, 2**60, 0, 0, 3, 0, 1457) + b"x" * 1457, "whole", "bad 24")
case("A69b", header(0, 0, 0, 0, 4) + struct.pack(">BQIIBIH", 1, 2**60, 0, 0, 3, 0, 1457), "whole", "bad 24")
case("A70", "0 0 1 0 4 | D 0 0 0 3 4294967295 0; P 0", "ends", "message -1 0 1")
case("A71", "0 0 0 0 4 | R 0 0; K 0 0; L 0; F 0; A 0 1; P 0", "gives", "gone 0", *["none"] * 5)
case("A72", "0 0 0 5 4 |", "whole", "end 0 5 5 0")
case("A72b", b"", "whole", "bad 0")
case(
    "A73",
    joined("0 0 0 0 32", [f"D 0 {i} 0 {2 if i == 0 else 1 if i == 31 else 0} 0 1456" for i in range(32)] + ["P 0"]),
    "ends",
    "message 0 46592 32",
)
case("A74", "0 65535001 0 0 4 |", "whole", "bad 0")
case("A74b", header(2**60, 0, 0, 0, 4), "whole", "bad 0")
case("A74c", header(0, 0, 0, 2**31, 4), "whole", "bad 0")
case("A74d", header(0, 0, 0, 0, 0), "whole", "bad 0")
case("A74e", header(0, 0, 0, 0, 33), "whole", "bad 0")
case("A74f", header(0, 0, 2, 0, 4), "whole", "bad 0")
case("A74g", header(2**60 - 1, 65535000, 1, 2**31 - 1, 32), "whole", f"end 0 {2**31 - 1} {2**31 - 1} 0")
case("A74h", b"DLT" + struct.pack(">HQIBIH", 2, 0, 0, 0, 0, 4), "whole", "bad 0")
case("A74i", header(0, 0, 0, 0, 4)[:23], "whole", "bad 0")

drifting = ["K %d %d" % (1000 + i, i) for i in range(6001)]
case("D1-early", "0 120000 1 0 4 | K 1000 0; D 1000 0 0 3 0 0; P 119000", "ends", "message -1000 0 1")
case("D1-late", joined("0 120000 1 0 4", drifting + ["D 7000 1 0 3 6000 0", "P 7000"]), "ends", "loss 0 0", "late 0 2 8000")
case("D1-twice", joined("0 0 1 0 4", drifting[:2001]), "ends", "adjusted 4000 0")
case("D8", "0 0 1 0 4 | K 0 0; " + "; ".join(["K 20000 14000; K 20000 26000"] * 500), "ends", "unsteady 6000")
case("D9", "0 1 1 0 4 | D 0 1 0 1 2147483647 0; P 0", "ends", "late 0 2 -2147483648")
case("D11", "0 0 0 0 8 | D 0 3 0 3 0 0; R 1 0", "ends", "gone 0")
case("D11b", "0 0 0 0 8 | D 0 3 0 3 0 0; R 1 1073741823", "ends", "gone 0")
case("D13-3", "0 0 0 0 4 | P 1152921504606846976", "gives", "refused 3")
case("D13-3b", "0 0 0 0 4 | P 18446744073709551615", "gives", "refused 3")
case("D13-4", "5 0 0 0 4 | D 3 0 0 3 0 0", "gives", "refused 4")
case("D13-5", "0 0 0 0 4 | D 0 2147483648 0 3 0 0; D 0 0 67108864 3 0 0; D 0 0 0 4 0 0", "gives", *["refused 5"] * 3)
case("D13-c", "0 0 0 0 4 | D 5 0 0 3 0 0; D 3 1 0 3 0 0", "counters", "rx_data=1")
case("D16", "0 0 1 0 4 | D 0 0 0 3 4294967295 0; P 0", "gives", "got 1 0", "message -1 0 1")


def holds(lines, mode, wanted):
    if mode == "counters":
        return bool(lines) and lines[-1].startswith("counters ") and all(w in lines[-1].split() for w in wanted)
    if mode == "whole":
        return lines == wanted
    if mode == "end":
        return lines[-1:] == wanted
    if not lines or not lines[-1].startswith("end "):
        return False
    bare = [line.partition(" ")[2] for line in lines[:-1]]
    if mode == "last-number":
        return bare[-1].startswith("ack ") and bare[-1].split()[-1:] == wanted
    return (bare if mode == "gives" else bare[-len(wanted):]) == wanted


def main(words):
    if words[:1] == ["--write"]:
        out = pathlib.Path(words[1])
        out.mkdir(parents=True, exist_ok=True)
        for name, given, _, _ in CASES:
            (out / f"{name}.dlt").write_bytes(given)
        return 0
    cases = CASES
    if words[:1] == ["--lines"]:
        words, cases = words[1:], [c for c in CASES if c[2] != "counters"]
    if not words:
        sys.exit(__doc__)
    if not shutil.which(words[0]):
        sys.exit(f"{words[0]}: no such program")
    differed = left = 0
    with tempfile.TemporaryDirectory() as folder:
        path = pathlib.Path(folder) / "trace.dlt"
        for name, given, mode, wanted in cases:
            path.write_bytes(given)
            command = words + (["--counters"] if mode == "counters" else []) + [str(path)]
            ran = subprocess.run(command, capture_output=True, text=True)
            lines = ran.stdout.splitlines()
            if holds(lines, mode, wanted):
                continue
            if ran.stderr.startswith("left the domain"):
                left += 1
                print(f"{name}: {ran.stderr.strip()}")
            else:
                differed += 1
                print(f"{name}: wanted {mode} {wanted[-3:]}, got {lines[-4:]} {ran.stderr.strip()}")
    print(f"readings: {len(cases) - differed - left} agreed, {left} left the domain and answered otherwise, {differed} differed")
    return 1 if differed else 0


if __name__ == "__main__":
    sys.exit(main(sys.argv[1:]))
