#!/usr/bin/env python3
"""Writes data/*.dlt, args and stdout of case_replay, and data/worked.dlt, stdin and stdout of replay, beside it.

A trace is written as in docs/DECISIONS.md, "Notation". The lines and the counters were worked out by hand from docs/01-scope.md, "Trace, mark DLT" and
"Counters follow 003", and stand here beside the records; none is copied from a run. The passes that the program pursethistle does not replay in
the gate come last, with the lines of their .txt files.
"""
import os
import struct

HERE = os.path.dirname(os.path.abspath(__file__))


def header(start, latency, drop, first, capacity, mark=b"DLT", version=1):
    return mark + struct.pack(">HqIBIH", version, start, latency, drop, first, capacity)


def data(now, number, message, location, stamp, length, there=None):
    body = b"x" * (length if there is None else there)
    return struct.pack(">BqIIBIH", 1, now, number, message, location, stamp, length) + body


def pop(now): return struct.pack(">Bq", 2, now)
def report(now): return struct.pack(">Bq", 3, now)
def full(now): return struct.pack(">Bq", 4, now)
def ack2(now, number): return struct.pack(">BqI", 5, now, number)
def drop(first, last): return struct.pack(">BII", 6, first, last)
def clock(now, stamp): return struct.pack(">BqI", 7, now, stamp)


CLEAR = b"\x08"
WORKED = header(0, 0, 1, 2147483646, 4)
WORKED_STEPS = [
    (data(1000, 2147483646, 0, 3, 0, 10), "got 2147483647 0"),
    (data(2000, 0, 1, 3, 1000, 10), "loss 2147483647 2147483647"),
    (data(3000, 2147483647, 2, 3, 500, 10), "got 1 1"),
    (data(3100, 0, 1, 3, 1000, 10), "refused 10"),
    (pop(4000), "message 0 10 1"),
]


def forms():
    """Every word of a line, first 0, capacity 32; longer than one piece."""
    s = []
    add = lambda record, line: s.append((record, line))
    add(clock(0, 0), "none")                                    # the first drift, 0
    add(data(0, 0, 0, 3, 0, 10), "got 1 0")
    add(pop(0), "message 0 10 1")
    add(pop(0), "none")
    add(data(0, 3, 1, 3, 0, 4), "loss 1 2")
    add(report(20000), "none")                                  # not past 2 × 10,000 yet
    add(report(20001), "report 2147483649 2")                   # a run: 1 with bit 31, then 2
    add(data(20001, 1, 1, 3, 0, 4), "got 2 1")
    add(drop(2, 2), "gone 1")
    add(data(20001, 2, 1, 3, 0, 4), "refused 10")               # given up is not lost
    add(data(20001, 0, 1, 3, 0, 4), "refused 9")
    add(data(20001, 50, 1, 3, 0, 4), "refused 8 29 47")         # next expected 4, room 32 - 3, gap 46
    add(data(20000, 4, 1, 3, 0, 4), "refused 4")
    add(data(2 ** 60, 4, 1, 3, 0, 4), "refused 3")
    add(data(20001, 2 ** 31, 1, 3, 0, 4), "refused 5")
    add(data(20001, 4, 2 ** 26, 3, 0, 4), "refused 5")
    add(data(20001, 4, 1, 4, 0, 4), "refused 5")
    add(pop(20001), "message 0 4 1")
    add(pop(20001), "late 2 4 20001")                           # 2 given up, 3 received at 0
    add(full(20001), "ack 1 4 10000 1000 32 - - -")
    add(full(20001), "none")                                    # the same number, too soon
    add(ack2(38001, 1), "rtt 11000 2500")                       # 18,000: P2 of 01
    add(ack2(38001, 9), "none")
    add(full(38001), "none")                                    # acknowledged already
    add(CLEAR, "clear")
    for k in range(4, 21):                                      # 16 intervals of 100 µs, 10 bytes each
        add(data(38001 + 100 * (k - 4), k, k, 3, 0, 10), f"got {k + 1} 0")
    add(full(39601), "ack 1 21 11000 2500 15 10000 100000 -")   # 16 / 1,600 µs and 160 bytes / 1,600 µs
    for k in range(4, 21):
        add(pop(39601), "message 0 10 1")
    for k in range(21, 85):                                     # the last ACK was of 21: at 85 a light one
        add(data(39601, k, k, 3, 0, 10), f"got {k + 1} 0" if k < 84 else "light 85 0")
        add(pop(39601), "message 0 10 1")
    for k in range(85, 117):                                    # one message of 32 packets
        add(data(39601, k, 7, 2 if k == 85 else 1 if k == 116 else 0, 0, 1456), f"got {k + 1} 0")
    add(data(39601, 117, 8, 3, 0, 4), "refused 7")
    add(full(39601), "none")                                    # no room
    add(pop(39601), "message 0 46592 32")
    for i in range(1000):                                       # drifts 0 and 11: mean 5.5, variance 30.25
        add(clock(39601, 39601 if i % 2 == 0 else 39590), "none" if i < 999 else "adjusted 5 5")
    for i in range(1000):                                       # the reference is now 39,601, its stamp 39,606: drifts 6,000 and -6,001, variance 36,006,000.25
        add(clock(39601, 33606 if i % 2 == 0 else 45607), "none" if i < 999 else "unsteady 6000")
    return s


def long():
    """Over 128 KB of file and over 64 KB of lines, each by a rule, on a receiver that never holds anything: first 5, so 4 is before it."""
    records = [
        lambda now: (pop(now), "none"),
        lambda now: (drop(5, 9), "gone 0"),
        lambda now: (report(now), "none"),
        lambda now: (full(now), "none"),                        # nothing to acknowledge
        lambda now: (ack2(now, 9), "none"),                     # no ACK 9 was sent
        lambda now: (CLEAR, "clear"),
        lambda now: (data(now, 4, 0, 3, 0, 1456), "refused 9") if now % 140 == 6 else (drop(5, 5), "gone 0"),
    ]
    return [records[now % 7](now) for now in range(7700)]


def runs():
    """The longest report of 32 slots: ten runs of two and a single number, 21 words; the third run goes over the wrap."""
    first = 2 ** 31 - 7
    number = lambda entry: (first + entry) % 2 ** 31
    s = [(data(0, number(e), 0, 3, 0, 0), f"loss {number(e - 2)} {number(e - 1)}") for e in range(2, 30, 3)]
    s.append((data(0, number(31), 0, 3, 0, 0), f"loss {number(30)} {number(30)}"))
    words = [w for e in range(0, 30, 3) for w in (2 ** 31 + number(e), number(e + 1))] + [number(30)]
    s.append((report(20001), "report " + " ".join(map(str, words))))
    return s


NAMES = "data bytes unique_data unique_bytes retransmit_data dropped_data dropped_bytes ack2 ack2_errors clock_adjustments".split()


def counters(*counts):
    return "counters " + " ".join(f"rx_{name}={count}" for name, count in zip(NAMES, counts, strict=True))


def case(name, head, steps, last, counted=None, tail=b""):
    """A bad file has no counters."""
    lines = [f"{i + 1} {line}" for i, (_, line) in enumerate(steps)] + [last] + ([counters(*counted)] if counted else [])
    return name, head + b"".join(r for r, _ in steps) + tail, lines


def recorded(name, counted):
    there = f"{HERE}/../../passes/{name}"
    with open(there + ".dlt", "rb") as file, open(there + ".txt") as lines:
        return name, file.read(), lines.read().splitlines() + [counters(*counted)]


H = header(0, 0, 0, 5, 4)
FORMS = forms()
LONG = long()
CASES = [
    case("worked", WORKED, WORKED_STEPS, "end 5 1 2147483647 2", (4, 104, 2, 52, 1, 0, 0, 0, 0, 0)),
    # unique: 26, 20, 81 of 26 and 32 of 1,472 bytes; one recovered; dropped: one given up, and 9, 8 and 7 of 20 bytes; 10 counts as data alone
    case("forms", header(0, 0, 1, 0, 32), FORMS, f"end {len(FORMS)} 117 117 0", (120, 49356, 115, 49256, 1, 4, 60, 2, 1, 1)),
    case("before_zero", header(0, 0, 1, 0, 4), [(data(0, 0, 0, 3, 2 ** 32 - 1, 0), "got 1 0"), (pop(0), "message -1 0 1")], "end 2 1 1 0", (1, 16, 1, 16, 0, 0, 0, 0, 0, 0)),
    case("header_alone", H, [], "end 0 5 5 0", (0,) * 10),
    case("empty", b"", [], "bad 0"),
    case("header_cut", H[:23], [], "bad 0"),
    case("wrong_mark", header(0, 0, 0, 5, 4, mark=b"DLX"), [], "bad 0"),
    case("version_2", header(0, 0, 0, 5, 4, version=2), [], "bad 0"),
    case("late_drop_2", header(0, 0, 2, 5, 4), [], "bad 0"),
    case("latency_over", header(0, 65535001, 0, 5, 4), [], "bad 0"),
    case("start_over", header(2 ** 60, 0, 0, 5, 4), [], "bad 0"),
    case("first_over", header(0, 0, 0, 2 ** 31, 4), [], "bad 0"),
    case("capacity_0", header(0, 0, 0, 5, 0), [], "bad 0"),
    case("capacity_33", header(0, 0, 0, 5, 33), [], "bad 0"),
    case("record_cut", H, [(pop(0), "none")], "bad 33", tail=b"\x02"),
    case("payload_cut", H, [], "bad 24", tail=data(0, 5, 0, 3, 0, 10, 9)),
    case("kind_0", H, [], "bad 24", tail=b"\x00"),
    case("kind_9", H, [(CLEAR, "clear")], "bad 25", tail=b"\x09"),
    case("length_1457", H, [], "bad 24", tail=data(0, 5, 0, 3, 0, 1457)),
    case("length_1457_cut", H, [], "bad 24", tail=data(2 ** 60, 5, 0, 3, 0, 1457, 0)),
    # 55 packets of 1,456 bytes, all too late; 1,100 ACK2s, none of an ACK that was sent, and only one that was would be an error (A6)
    case("long", H, LONG, f"end {len(LONG)} 5 5 0", (55, 80960, 0, 0, 0, 55, 80960, 1100, 0, 0)),
    case("runs", header(0, 0, 0, 2 ** 31 - 7, 32), runs(), f"end 12 {2 ** 31 - 7} {2 ** 31 - 7} 32", (11, 176, 11, 176, 0, 0, 0, 0, 0, 0)),
    recorded("recovered", (6, 144, 4, 96, 2, 0, 0, 0, 0, 0)),   # a frame has 8 bytes, so it counts 24
    recorded("twice", (9, 216, 3, 72, 0, 3, 72, 0, 0, 0)),
    recorded("half_turn", (8, 192, 6, 144, 2, 0, 0, 0, 0, 0)),  # frames 1 and 5 come again, and both are recovered
    recorded("half_turn_no_clock", (8, 192, 6, 144, 1, 1, 24, 0, 0, 0)),  # frame 5 is refused 9
]


def main():
    os.makedirs(f"{HERE}/data", exist_ok=True)
    os.makedirs(f"{HERE}/../replay/data", exist_ok=True)
    out = []
    for name, content, lines in CASES:
        with open(f"{HERE}/data/{name}.dlt", "wb") as f:
            f.write(content)
        out += [f"{name}.dlt"] + lines
    with open(f"{HERE}/args", "w") as f:
        f.write("--counters\n" + "".join(f"{name}.dlt\n" for name, _, _ in CASES))
    with open(f"{HERE}/stdout", "w") as f:
        f.write("\n".join(out) + "\n")
    name, content, _ = CASES[0]
    with open(f"{HERE}/../replay/data/{name}.dlt", "wb") as f:
        f.write(content)
    content, lines = next((content, lines) for name, content, lines in CASES if name == "long")
    with open(f"{HERE}/../replay/stdin", "wb") as f:
        f.write(content)
    with open(f"{HERE}/../replay/stdout", "w") as f:
        f.write("\n".join(lines[:-1]) + "\n")


if __name__ == "__main__":
    main()
