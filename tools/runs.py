#!/usr/bin/env python3
"""Runs a made source on threads again and again, and compares each run with `hcsp simulate`.

Usage: tools/runs.py [TIMES [WORKERS [PAIRS [SEED]]]], as a rule 200 runs by 8 workers of 32 pairs, which are 64 processes. Each
must end by itself within two minutes. Then for each channel the moments and values that it carried, for each process those that it
logged, and the end line must be those of `simulate`: lines of different channels and processes may come in any order at one moment.
The status is 1 where a run differs. Build the program first (`./hcsp check < examples/tank.hcsp`).
"""
import subprocess
import sys
import time
from pathlib import Path

from made import made

PROGRAM = Path(__file__).resolve().parent.parent / "crates/hc_main/out/hc_main"
BOUNDS = ["--horizon", "30000", "--limit", "1000000"]
MOST_SECONDS = 120


def traced(words, text):
    """The trace and what stands on error; the program must end by itself with status 0."""
    told = subprocess.run([PROGRAM, *words, *BOUNDS], input=text, capture_output=True, text=True, timeout=MOST_SECONDS, check=True)
    return told.stdout, told.stderr


def histories(trace):
    """By channel with its ends, and by process, the moments and values in order; then how the run ends."""
    carried, logged = {}, {}
    lines = trace.splitlines()
    for line in lines[1:-1]:
        word = line.split(" ")
        if word[1] == "comm":
            carried.setdefault(tuple(word[2:5]), []).append((word[0], word[5]))
        elif word[1] == "log":
            logged.setdefault(word[2], []).append((word[0], word[3]))
    return lines[0], carried, logged, lines[-1]


def main():
    given = [int(word) for word in sys.argv[1:]]
    times, workers, pairs, seed = given + [200, 8, 32, 0][len(given) :]
    text = made(pairs, seed)
    whole, _ = traced(["simulate"], text)
    plain = histories(whole)
    communications = sum(map(len, plain[1].values()))
    print(f"{2 * pairs} processes, {len(plain[1])} channels, {communications} communications: {plain[3]}")
    alike, same_bytes, anew, seconds = 0, 0, 0, []
    for _ in range(times):
        start = time.monotonic()
        trace, report = traced(["run", "--workers", str(workers), "--report"], text)
        seconds.append(time.monotonic() - start)
        alike += histories(trace) == plain
        same_bytes += trace == whole
        anew += int(report.split()[1])
    seconds.sort()
    print(f"{times} runs by {workers} workers ended by themselves, {alike} with the histories of `simulate`, {same_bytes} with the same text")
    print(f"turns worked out anew: {anew}; seconds by the clock: {seconds[0]:.2f}, {seconds[times // 2]:.2f}, {seconds[-1]:.2f} (least, middle, most)")
    sys.exit(alike != times)


if __name__ == "__main__":
    main()
