#!/usr/bin/env python3
"""Minutes of processor by crate of a gate that runs in a clone.

Start it beside `rt ci`, with the clone's folder. It looks at the prover's processes of that run until none has run for a minute, or until it is interrupted,
and then prints a line for each crate: its proof, its tests, and its wrong bodies. What a process takes after the last look at it is missed, half a second at
most.
"""
import os
import re
import sys
import time
from collections import defaultdict
from pathlib import Path

TICKS = os.sysconf("SC_CLK_TCK")
PAUSE, PATIENCE = 0.5, 60


def processes():
    """Each process as its number with its start, its words, its folder, and its seconds so far."""
    for folder in Path("/proc").glob("[0-9]*"):
        try:
            words = (folder / "cmdline").read_bytes().decode(errors="replace").split("\0")
            place = os.readlink(folder / "cwd")
            stat = (folder / "stat").read_text()
        except OSError:
            continue
        after = stat[stat.rindex(")") + 2 :].split()
        yield (folder.name, after[19]), words, place, (int(after[11]) + int(after[12])) / TICKS


def kind_of(words, place, clone, gates):
    """The crate of a prover's process of the gate, and for what it runs; None for any other process."""
    if "--crate-name" not in words or not os.path.basename(words[0]).startswith("rattle"):
        return None
    crate = words[words.index("--crate-name") + 1]
    edit = re.search(r"/rt-edit-(\d+)-", place)
    if edit:
        return (crate, "wrong bodies") if edit[1] in gates else None
    if Path(place).is_relative_to(clone):
        return crate, "tests" if "--test" in words else "proof"
    return None


def watch(clone, spent):
    """Notes the seconds of each process of the gate, under its number and start."""
    gates, last = set(), time.monotonic()
    while time.monotonic() - last < PATIENCE:
        for process, words, place, seconds in processes():
            if "ci" in words and Path(place) == clone:
                gates.add(process[0])
            kind = kind_of(words, place, clone, gates)
            if kind:
                spent[process] = kind, seconds
                last = time.monotonic()
        time.sleep(PAUSE)


def main():
    spent = {}
    try:
        watch(Path(sys.argv[1]).resolve(), spent)
    except KeyboardInterrupt:
        pass
    total = defaultdict(float)
    for kind, seconds in spent.values():
        total[kind] += seconds
    print("| crate | proof | tests | wrong bodies |\n|---|---|---|---|")
    for crate in sorted({crate for crate, _ in total}):
        row = (f"{total[crate, what] / 60:.1f}" for what in ("proof", "tests", "wrong bodies"))
        print(f"| `{crate}` | " + " | ".join(row) + " |")
    print(f"| in all | {sum(total.values()) / 60:.0f} | | |")


if __name__ == "__main__":
    main()
