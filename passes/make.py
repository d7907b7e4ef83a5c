#!/usr/bin/env python3
"""Makes the recordings beside it: wrap.dlt, recovered.dlt, twice.dlt, half_turn.dlt and half_turn_no_clock.dlt; and the
copies that the gate replays, since a program there is run outside the repository. Format: 01, "Trace, mark DLT"."""
import pathlib
import struct

HERE = pathlib.Path(__file__).resolve().parent
LAST = 2**31 - 1


def header(start, latency, dropping, first, capacity):
    return b"DLT" + struct.pack(">HQIBIH", 1, start, latency, dropping, first, capacity)


def data(now, number, stamp, text, message=0, location=3):
    payload = text.encode()
    return struct.pack(">BQIIBIH", 1, now, number % 2**31, message, location, stamp, len(payload)) + payload


def pop(now):
    return struct.pack(">BQ", 2, now)


def report(now):
    return struct.pack(">BQ", 3, now)


def ack(now):
    return struct.pack(">BQ", 4, now)


def ack2(now, number):
    return struct.pack(">BQI", 5, now, number)


def clock(now, stamp):
    return struct.pack(">BQI", 7, now, stamp)


def frame(place):
    return f"frame {place:02}"


# A clean pass: 16 frames in order, a millisecond apart, the ninth with number 0; then one ACK, its ACK2, and every frame popped.
first = LAST - 7
wrap = header(0, 20000, 0, first, 32)
for i in range(16):
    wrap += data(1000 * i, first + i, 1000 * i, frame(i))
wrap += ack(16000) + ack2(26000, 1)
for i in range(17):
    wrap += pop(40000)

# Frames 2 and 3, with the numbers 2147483647 and 0, are lost, asked for, and sent again.
first = LAST - 2
recovered = header(0, 100000, 0, first, 32)
for i in (0, 1, 4, 5):
    recovered += data(1000 * i, first + i, 1000 * i, frame(i))
recovered += report(10000) + report(24001)
recovered += data(30000, first + 3, 3000, frame(3))
recovered += report(54001) + report(54002)
recovered += data(60000, first + 2, 2000, frame(2))
for i in range(6):
    recovered += pop(120000)

# Every frame comes twice, and around the wrap late or not at all; late dropping is on.
first = LAST - 1
twice = header(0, 50000, 1, first, 8)
twice += data(0, first, 0, frame(0)) + data(100, first, 0, frame(0))
twice += data(2000, first + 2, 2000, frame(2)) + data(2100, first + 2, 2000, frame(2))
twice += pop(50000) + pop(50001)
twice += data(50002, first, 0, frame(0))
twice += pop(57000)
twice += data(57001, first + 1, 1000, frame(1))
twice += data(57002, first + 2, 2000, frame(2))
twice += data(57003, first + 3, 57003, frame(3)) + data(57004, first + 3, 57003, frame(3))
twice += pop(107003) + pop(107004)

# Eight frames, 100 ms apart, over the stamp's half turn, 2^31 microseconds after the start. Frame 1, before it, and
# frame 5, after it, are lost, and come again 30 ms after the gap is seen. The two recordings differ in the first record.
HALF_TURN = 2**31


def over_half_turn(before):
    """The pass, with the record made from the reading 50 ms before it."""
    time = [HALF_TURN - 350000 + 100000 * i for i in range(8)]
    come = lambda now, i: data(now, i, time[i], frame(i))
    recording = header(0, 120000, 1, 0, 8) + before(time[0] - 50000)
    recording += come(time[0], 0) + come(time[2], 2) + come(time[2] + 30000, 1)
    recording += 3 * pop(time[2] + 30000)
    recording += come(time[3], 3) + pop(time[2] + 120000)
    recording += come(time[4], 4) + 2 * pop(time[3] + 120000) + pop(time[4] + 120000)
    recording += come(time[6], 6) + pop(time[6])
    recording += come(time[6] + 30000, 5) + pop(time[6] + 30000)
    recording += come(time[7], 7) + pop(time[6] + 120000) + pop(time[7] + 120000)
    return recording


half_turn = over_half_turn(lambda now: clock(now, now))
half_turn_no_clock = over_half_turn(pop)

CRATES = HERE.parent / "crates"
PASSES = (
    ("wrap", wrap, "pursethistle"),
    ("recovered", recovered, "case_replay"),
    ("twice", twice, "case_replay"),
    ("half_turn", half_turn, "case_replay"),
    ("half_turn_no_clock", half_turn_no_clock, "case_replay"),
)
for name, recording, case in PASSES:
    for folder in (HERE, CRATES / case / "data"):
        (folder / f"{name}.dlt").write_bytes(recording)
