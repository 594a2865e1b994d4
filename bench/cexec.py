#!/usr/bin/env python3
"""How many machine steps a second `hcsp cexec` takes.

Usage: bench/cexec.py --hcsp PROGRAM [--steps K] [--rounds N]
Loops that never end, each run for 10,000,000 steps: of assignments, of additions of fractions, of calls, and of two threads that
take the mutex in turn, of whose steps some are blocked. Seconds of processor, the least of some rounds; what a run of one step
takes, which is reading the text and making the machine, is taken off for the steps a second.
"""
import os
import subprocess
import sys
import tempfile
from pathlib import Path

PRELUDE = (Path(__file__).resolve().parent.parent / "crates/hc_suite_c/prelude.text").read_text()
LEAST, AIM = 500_000, 2_000_000
USED_UP = 13
SHARED = "while (1) { m_lock(); a_n[0] = a_n[0] + 1; if (a_n[0] == 1000) { a_n[0] = 0; } m_unlock(); } return 0;"
SHAPES = {
    "assignments": ["int v_a = 0; int v_b = 0; while (1) { v_a = 1 - v_a; v_b = v_a * 3 - v_b; } return 0;"],
    "additions of fractions": [
        "fr_set(0, 0, 1, 3); fr_set(0, 1, -1, 7); "
        "while (1) { fr_add(0, 3, 3, 0); fr_add(0, 3, 3, 1); fr_sub(0, 3, 3, 1); fr_sub(0, 3, 3, 0); } return 0;"
    ],
    "calls": ["int v_a = 0; while (1) { v_a = f_x(v_a, 1); } return 0;"],
    "two threads under the mutex": [SHARED, SHARED],
}


def text(threads):
    names = ", ".join(f"t{number}" for number in range(len(threads)))
    processes = ", ".join(f'"P{number}"' for number in range(len(threads)))
    bodies = "\n".join(f"static void *t{number}(void *v_u) {{ {body} }}" for number, body in enumerate(threads))
    return PRELUDE + f"""static int a_n[1];
const char *const chan_name[1] = {{ "" }};
const char *const proc_name[{len(threads)}] = {{ {processes} }};
static int f_x(int v_a, int v_b) {{ if (v_a < 1000) {{ return v_a + v_b; }} return 0; }}
{bodies}
static void *(*const hc_threads[{len(threads)}])(void *) = {{ {names} }};
int main(void) {{ return hc_main({len(threads)}, hc_threads); }}
"""


def measured(program, source, steps):
    """Seconds of processor, and how many steps moved."""
    with tempfile.TemporaryFile() as given, tempfile.TemporaryFile() as told:
        given.write(source.encode())
        given.seek(0)
        process = subprocess.Popen([program, "cexec", "--steps", str(steps), "--report"], stdin=given, stdout=subprocess.DEVNULL, stderr=told)
        _, status, used = os.wait4(process.pid, 0)
        told.seek(0)
        lines = told.read().decode().splitlines()
        assert os.waitstatus_to_exitcode(status) == USED_UP, (status, lines)
        return used.ru_utime + used.ru_stime, int(lines[-1].split()[1])


def setting(name, otherwise):
    return sys.argv[sys.argv.index(name) + 1] if name in sys.argv else otherwise


def main():
    program, steps, rounds = setting("--hcsp", None), int(setting("--steps", 10_000_000)), int(setting("--rounds", 3))
    if program is None:
        sys.exit("usage: bench/cexec.py --hcsp PROGRAM [--steps K] [--rounds N]")
    print(f"| loop | steps | moved | seconds | of these before the first step | steps a second |\n|{'---|' * 6}")
    slow = []
    for name, threads in SHAPES.items():
        source = text(threads)
        before = min(measured(program, source, 1)[0] for _ in range(rounds))
        runs = [measured(program, source, steps) for _ in range(rounds)]
        seconds = min(run[0] for run in runs)
        speed = steps / max(seconds - before, 0.001)
        print(f"| {name} | {steps:,} | {runs[0][1]:,} | {seconds:.2f} | {before:.3f} | {speed:,.0f} |", flush=True)
        if speed < LEAST:
            slow.append(name)
    print(f"\nAt least {LEAST:,} steps a second are asked, {AIM:,} aimed at: " + (f"too slow are {', '.join(slow)}" if slow else "each loop has that"))
    return 1 if slow else 0


if __name__ == "__main__":
    sys.exit(main())
