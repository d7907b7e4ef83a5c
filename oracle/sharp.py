#!/usr/bin/env python3
"""Is the comparison sharp enough? Makes one small mistake at a time in a copy of the Rust's files, builds it, and compares it with the
unchanged Rust as if it were the port. Every mistake must be found.

    sharp.py [N] [SEED] [WORD]      N traces of each kind (30), seed (1), only mistakes in whose text WORD stands
    sharp.py --inprocess ..         the same for inprocess: N runs (300), the changed Rust against the port's library
"""
import os
import pathlib
import shutil
import subprocess
import sys
import tempfile

HERE = pathlib.Path(__file__).resolve().parent
BUFFER, ARQ, HISTORY, TIME = (f"protocol/receiver/{n}.rs" for n in ("buffer", "arq", "history", "time"))
BASE, RTT, PACKET, MOD = "protocol/time/base.rs", "protocol/time/rtt.rs", "packet/time.rs", "protocol/receiver/mod.rs"

# File, what stands there (once), what is put in its place.
MISTAKES = [
    (BUFFER, "now > lost.feedback_time + (rtt_mean * lost.k)", "now >= lost.feedback_time + (rtt_mean * lost.k)"),
    (BUFFER, "            k: 2,", "            k: 3,"),
    (BUFFER, "lost.k += 1;", "lost.k += 2;"),
    (BUFFER, "lost.feedback_time = now;", ""),
    (BUFFER, "if now < sent_time + self.tsbpd_latency", "if now <= sent_time + self.tsbpd_latency"),
    (BUFFER, "packet_time <= tsbpd_threshold", "packet_time < tsbpd_threshold"),
    (BUFFER, "Duration::from_millis(5)", "Duration::from_micros(5_001)"),
    (BUFFER, "if buffer_available < buffer_required", "if buffer_available <= buffer_required"),
    (BUFFER, "if self.buffer_available() == 0", "if self.buffer_available() <= 1"),
    (BUFFER, "if seq_number < self.seqno0", "if seq_number <= self.seqno0"),
    (BUFFER, "self.count == 0 && !location.contains(PacketLocation::FIRST)", "false"),
    (BUFFER, "d.message_number == message", "d.message_number == message || true"),
    (BUFFER, "        self.recalculate_lrsn(0);\n", ""),
    (BUFFER, "            self.recalculate_lrsn(index);", "            self.lrsn = seq_number + 1;"),
    (BUFFER, "        if self.lrsn == seq_number {\n            self.lrsn = seq_number + 1;", "        if self.lrsn <= seq_number {\n            self.lrsn = seq_number + 1;"),
    (BUFFER, "        if matches!(self, Lost(_)) {\n            *self = Received(data);", "        if !matches!(self, Received(_)) {\n            *self = Received(data);"),
    (BUFFER, " || !message_loc.contains(PacketLocation::FIRST)", ""),
    (BUFFER, "Some((seq_number, first_packet_time))\n", "{ let _ = first_packet_time; Some((seq_number, packet.unwrap().1)) }\n"),
    (BUFFER, "            .filter_map(|p| p.lost_or_dropped())", "            .filter_map(|p| match p { BufferPacket::Lost(l) => Some(l.data_sequence_number), _ => None })"),
    (BUFFER, "self.remote_clock.monotonic_instant_from(timestamp)", "self.remote_clock.instant_from(timestamp)"),
    (BUFFER, "bytes.extend(pack.into_data_packet().unwrap().payload);\n", "bytes.extend(pack.into_data_packet().unwrap().payload.slice(..0));\n"),
    (ARQ, "*interval / 8 < ai", "*interval / 8 <= ai"),
    (ARQ, "*interval > ai / 8", "*interval >= ai / 8"),
    (ARQ, "filtered.len() <= 8", "filtered.len() < 8"),
    (ARQ, "select_nth_unstable_by_key(16 / 2,", "select_nth_unstable_by_key(16 / 2 - 1,"),
    (ARQ, "sorted[7]", "sorted[8]"),
    (ARQ, "seq_number % 16 == 1 ", "seq_number % 16 == 2 "),
    (ARQ, "            self.probe_time = None\n        }", "        }"),
    (ARQ, "if !recovered {", "if true {"),
    (ARQ, "if self.receive_buffer.buffer_available() == 0", "if false"),
    (HISTORY, "interval < rtt_mean * 2", "interval <= rtt_mean * 2"),
    (HISTORY, "next_dsn < last.data_sequence_number", "next_dsn <= last.data_sequence_number"),
    (HISTORY, "next_dsn < last.data_sequence_number ||", "false ||"),
    (HISTORY, "now > ack.departure_time + latency_window", "now >= ack.departure_time + latency_window"),
    (HISTORY, "self.buffer.len() > 1", "self.buffer.len() > 0"),
    (HISTORY, "u32 = 64;", "u32 = 65;"),
    (HISTORY, "next_dsn >= self.last_ack_dsn + ", "next_dsn > self.last_ack_dsn + "),
    (HISTORY, "if self.largest_ack2_dsn == next_dsn", "if false"),
    (HISTORY, "if ack_seq_num > self.buffer.back()", "if ack_seq_num >= self.buffer.back()"),
    (HISTORY, "if ack_seq_num < front", "if ack_seq_num <= front"),
    (HISTORY, "        self.largest_ack2_dsn = ack.data_sequence_number;", "        self.largest_ack2_dsn = self.largest_ack2_dsn.max(ack.data_sequence_number);"),
    (HISTORY, "        // add it to the ack history\n        self.last_ack_dsn = next_dsn;", ""),
    (HISTORY, "            self.last_ack_dsn = next_dsn;\n            Some(next_dsn)", "            Some(next_dsn)"),
    (HISTORY, "        self.buffer.clear();\n        self.largest_ack2_dsn = lrsn;", "        self.buffer.clear();\n        let _ = lrsn;"),
    (HISTORY, "        self.buffer.clear();\n", ""),
    (RTT, "self.mean.as_micros() as i64 * 7 + rtt.as_micros() as i64) / 8", "self.mean.as_micros() as i64 * 7 + rtt.as_micros() as i64 + 4) / 8"),
    (RTT, "* 3\n", "* 3 + 1\n"),
    (TIME, "if stddev > self.drift_deviation_tolerance", "if stddev >= self.drift_deviation_tolerance"),
    (TIME, "Some(last) if last >= instant => last,", "Some(last) if last >= instant => { self.last_monotonic_instant = Some(instant); last }"),
    (BASE, "if now > self.reference_time {", "if false {"),
    (BASE, "self.reference_ts - (self.reference_time - instant)", "self.reference_ts + (self.reference_time - instant)"),
    (PACKET, "            TimeSpan(pos_sub.0 as i32)\n", "            TimeSpan(pos_sub.0 as i32 & !1)\n"),
    (MOD, "DiscardedDuplicate { .. } => {}", "DiscardedDuplicate { .. } => self.stats.rx_dropped_data += 1,"),
    (MOD, "self.stats.rx_dropped_bytes += bytes;", ""),
    (MOD, "                    self.stats.rx_retransmit_data += 1;", "                    self.stats.rx_retransmit_data += 1;\n                    self.stats.rx_unique_data += 1;"),
    (MOD, "self.stats.rx_dropped_data += dropped;", "self.stats.rx_dropped_data += 1;"),
    (MOD, "            self.stats.rx_ack2_errors += 1;\n        }", "        } else { self.stats.rx_ack2_errors += 1; }"),
]


def main(words):
    inprocess = words[:1] == ["--inprocess"]
    if inprocess:
        words = words[1:] or ["300"]
    count, seed = (words + ["30", "1"][len(words):])[:2]
    if not (count.isdigit() and seed.isdigit()):
        sys.exit(__doc__)
    only = words[2] if len(words) > 2 else ""
    oracle = HERE / "target/release/oracle"
    missed = 0
    if inprocess and "PURSETHISTLE_LIB" not in os.environ:
        subprocess.run([HERE.parent / "tools/build", "library"], check=True)
    with tempfile.TemporaryDirectory() as folder:
        room = pathlib.Path(folder)
        shutil.copytree(HERE, room / "oracle", ignore=shutil.ignore_patterns("target", "sample"))
        shutil.copytree(HERE.parent / "docs/src", room / "docs/src")
        # The crate over the port's library, and its example.
        for part in ("bindings", "examples"):
            (room / part).symlink_to(HERE.parent / part)
        program = room / "replay"
        program.write_text(f"#!/bin/sh\nexec {room}/target/release/oracle replay \"$@\"\n")
        program.chmod(0o755)
        chosen = [m for m in MISTAKES if only in m[0] + m[1] + m[2]]
        for file, old, new in chosen:
            path = room / "docs/src" / file
            text = path.read_text()
            assert text.count(old) == 1, (file, old, text.count(old))
            path.write_text(text.replace(old, new))
            # Built in less time; the answers are the same.
            env = dict(os.environ, CARGO_TARGET_DIR=str(room / "target"), CARGO_PROFILE_RELEASE_OPT_LEVEL="1")
            if inprocess:
                env.setdefault("PURSETHISTLE_LIB", str(HERE.parent / "target/staticlib/libexports.a"))
            which = ["--features", "library", "--bin", "inprocess"] if inprocess else ["--bin", "oracle"]
            built = subprocess.run(["cargo", "build", "--release", "--quiet", "-j1", *which], cwd=room / "oracle", env=env, capture_output=True, text=True)
            if built.returncode != 0:
                sys.exit(f"{file}: {new!r} does not build:\n{built.stderr[-1500:]}")
            calls = [room / "target/release/inprocess", count, seed, "first"] if inprocess else [oracle, "lines", program, count, seed]
            ran = subprocess.run(calls, cwd=room, capture_output=True, text=True)
            last = ran.stdout.splitlines()[-1] if ran.stdout else ran.stderr[-300:]
            found = ran.returncode == 1
            missed += not found
            print(f"{'found ' if found else 'MISSED'} {file}: {old.strip()[:70]!r}: {last}", flush=True)
            path.write_text(text)
    print(f"sharp: {len(chosen) - missed} found, {missed} missed")
    return 1 if missed else 0


if __name__ == "__main__":
    sys.exit(main(sys.argv[1:]))
