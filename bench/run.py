#!/usr/bin/env python3
"""What threads give: `hcsp run` by 1, 2 and 4 workers beside `hcsp simulate`, on processes that work long between meetings.

Prints a table for 2, 4 and 8 processes: the seconds by the clock of each call, and against `simulate`. Each is the least of eleven
rounds, in each of which all calls are made one after the other, so that what else the machine does falls on all. A process counts
to 1,000 in a loop with a wide expression, then waits a time unit, and so on. Build the program first
(`./hcsp check < examples/tank.hcsp`).
"""
import os
import subprocess
import sys
import tempfile
import time
from pathlib import Path

PROGRAM = Path(__file__).resolve().parent.parent / "crates/hc_main/out/hc_main"
MOST_STEPS = 1_000_000
ROUND_STEPS = 3_100  # of one process, a little more than it takes
WIDE = "+".join(["k * 3 - 2 * k"] * 24)
TIMES = 11
CALLS = [["simulate"]] + [["run", "--workers", str(workers)] for workers in (1, 2, 4)]


def source(processes):
    """The text, and the number of its rounds, so that all fit into the limit of steps."""
    rounds = MOST_STEPS // (processes * ROUND_STEPS)
    body = f"(r := 0; (k := 0; (y := {WIDE}; k := k + 1){{k < 1000}}**; wait(1); r := r + 1){{r < {rounds}}}**)"
    return "system\n" + " ||\n".join(f"P{number} = {body}" for number in range(processes)) + "\nendsystem\n", rounds


def seconds(words, given):
    """The seconds of one call by the clock; its run must terminate."""
    given.seek(0)
    start = time.monotonic()
    told = subprocess.run([PROGRAM, *words, "--horizon", "30000", "--limit", str(MOST_STEPS)], stdin=given, stdout=subprocess.PIPE, check=True)
    spent = time.monotonic() - start
    end = told.stdout.splitlines()[-1].decode()
    assert end.startswith("end terminated"), end
    return spent


def least(text):
    """The least seconds of each call."""
    with tempfile.TemporaryFile() as given:
        given.write(text.encode())
        spent = [[seconds(words, given) for words in CALLS] for _ in range(TIMES)]
    return [min(times) for times in zip(*spent)]


def main():
    counts = [int(word) for word in sys.argv[1:]] or [2, 4, 8]
    print(f"{os.cpu_count()} processors")
    print("| processes | rounds | simulate | run --workers 1 | --workers 2 | --workers 4 |")
    print("|---|---|---|---|---|---|")
    for count in counts:
        text, rounds = source(count)
        plain, *threads = least(text)
        print(f"| {count} | {rounds} | {plain:.3f} s | " + " | ".join(f"{spent:.3f} s ({spent / plain:.2f})" for spent in threads) + " |")
        sys.stdout.flush()


if __name__ == "__main__":
    main()
