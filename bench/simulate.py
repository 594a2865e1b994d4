#!/usr/bin/env python3
"""How fast `hcsp simulate` is: pairs of a counter loop with an evolution of constant rate and a meeting each round.

Prints a table for 1, 2, 4, 8, 16 and 32 pairs of 1,000 rounds: steps of the run, seconds, steps a second, the time of a
step against that with one pair, and the greatest memory. Build the program first (`./hcsp check < examples/tank.hcsp`).
"""
import os
import resource
import subprocess
import sys
import time
from pathlib import Path

PROGRAM = Path(__file__).resolve().parent.parent / "crates/hc_main/out/hc_main"
RATES = [1, 2, 3, 4, 6, 8]
MOST_STEPS = 1_000_000


def source(pairs):
    processes = []
    for i in range(pairs):
        rate = RATES[i % len(RATES)]
        processes.append(f"A{i} = (k := 0; (x := 0; <x_dot = {rate} & x < 24>; c{i}!x; k := k + 1){{k < 1000}}**)")
        processes.append(f"B{i} = (j := 0; (c{i}?y; s := s + y; j := j + 1){{j < 1000}}**; log(s))")
    return ("system\n" + " ||\n".join(processes) + "\nendsystem\n").encode()


def run(text, limit):
    """The last line of the trace, the seconds that it took, and the greatest memory in bytes."""
    read, write = os.pipe()
    start = time.monotonic()
    child = subprocess.Popen([PROGRAM, "simulate", "--horizon", "30000", "--limit", str(limit)], stdin=read, stdout=subprocess.PIPE)
    os.close(read)
    os.write(write, text)
    os.close(write)
    trace = child.stdout.read()
    _, _, used = os.wait4(child.pid, 0)
    return trace.splitlines()[-1].decode(), time.monotonic() - start, used.ru_maxrss * 1024


def steps_of(text):
    """The number of steps of the run: the least limit at which it terminates, less one."""
    least, most = 1, MOST_STEPS
    while least < most:
        limit = (least + most) // 2
        if run(text, limit)[0].startswith("end terminated"):
            most = limit
        else:
            least = limit + 1
    return least - 1


def main():
    pairs = [int(word) for word in sys.argv[1:]] or [1, 2, 4, 8, 16, 32]
    print("| pairs | steps | seconds | steps a second | a step, against one pair | memory, MB |")
    print("|---|---|---|---|---|---|")
    first = None
    for count in pairs:
        text = source(count)
        steps = steps_of(text)
        end, seconds, memory = min((run(text, MOST_STEPS) for _ in range(7)), key=lambda found: found[1])
        assert end.startswith("end terminated"), end
        each = seconds / steps
        first = first or each
        print(f"| {count} | {steps} | {seconds:.2f} | {steps / seconds:,.0f} | {each / first:.2f} | {memory / 1e6:.1f} |")


if __name__ == "__main__":
    resource.setrlimit(resource.RLIMIT_CORE, (0, 0))
    main()
