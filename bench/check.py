#!/usr/bin/env python3
"""How the time of `hcsp check` grows with the text, over the worst shapes of a source.

Prints a table: for each shape the seconds of processor, the least of twelve, at about 250,000, 500,000 and 1,048,576 bytes, and how many times the time
grows where the size doubles. With `--instructions` it counts the instructions of each run instead (by `valgrind`), which no other work on the machine
disturbs. Build the program first (`./hcsp check < examples/tank.hcsp`).
"""
import re
import resource
import subprocess
import sys
import tempfile
from pathlib import Path

PROGRAM = Path(__file__).resolve().parent.parent / "crates/hc_main/out/hc_main"
SIZES = [250_000, 500_000, 1_048_576]
REST = "system P = (skip) endsystem\n"


def repeated(size, before, part, behind):
    """As many parts as fit between these two, each made from its number."""
    parts, room = [], size - len(before) - len(behind)
    while True:
        text = part(len(parts))
        if len(text) > room:
            return before + "".join(parts) + behind
        parts.append(text)
        room -= len(text)


def parameters(size):
    return repeated(size, "module M(val z", lambda n: f", val p{n}", "): begin skip end endmodule\n" + REST)


def modules(size):
    return repeated(size, "", lambda n: f"module M{n}(): begin skip end endmodule\n", REST)


def writes(size):
    half = repeated(size // 2, "module M(val z", lambda n: f", val p{n}", "): begin skip")
    count = half.count(",")
    body, room = [], size - len(half) - 60
    for n in range(count):
        text = f"; q{n} := p{n}"
        if len(text) > room:
            break
        body.append(text)
        room -= len(text)
    return half + "".join(body) + " end endmodule\n" + REST


def channels(size):
    """10,000 statements over 256 channels in 64 processes, the sends made long by their values."""
    each = 10_000 // 64
    wide = max(1, (size - 10_000 * 8) // 10_000 // 2)
    value = "+".join(["1"] * min(wide, 100))
    processes = []
    for p in range(64):
        statements = [f"c{(p * 4 + n) % 256 if n < 4 else p * 4 + n % 4}!{value}" for n in range(each)]
        processes.append(f"P{p} = ({'; '.join(statements)})")
    return "system\n" + " ||\n".join(processes) + "\nendsystem\n"


def arguments(size):
    """A call with as many arguments as fit; up to 25,000 of them stand in the module."""
    low, high = 0, size // 8
    while low < high:
        middle = (low + high + 1) // 2
        if len(arguments_text(middle)) <= size:
            low = middle
        else:
            high = middle - 1
    return arguments_text(low)


def arguments_text(count):
    names = [f"p{n}" for n in range(count)]
    used = names[:25_000]
    sums = ["x := " + "+".join(used[n : n + 100]) for n in range(0, len(used), 100)]
    params = ", ".join(f"val {name}" for name in names)
    given = ", ".join("1" for _ in names)
    return f"module M({params}): begin {'; '.join(sums)} end endmodule\nsystem P = M({given}) endsystem\n"


def calls(size):
    """64 calls of the last of as many modules as fit."""
    rest = "system " + " || ".join(f"P{n} = LAST()" for n in range(64)) + " endsystem\n"
    return repeated(size, "", lambda n: f"module M{n}(): begin skip end endmodule\n", "module LAST(): begin skip end endmodule\n" + rest)


def expressions(size):
    """Wide sums behind deep brackets, as many assignments as fit."""
    return repeated(size, "system P = (x := 1", lambda n: "; x := " + "(" * 60 + "1" + ")" * 60 + "+1" * 99, ") endsystem\n")


def seconds(text):
    with tempfile.TemporaryFile() as source:
        source.write(text.encode())
        best = None
        for _ in range(12):
            source.seek(0)
            before = resource.getrusage(resource.RUSAGE_CHILDREN)
            subprocess.run([PROGRAM, "check"], stdin=source, stdout=subprocess.DEVNULL, stderr=subprocess.DEVNULL, timeout=600)
            after = resource.getrusage(resource.RUSAGE_CHILDREN)
            spent = after.ru_utime - before.ru_utime + after.ru_stime - before.ru_stime
            best = spent if best is None else min(best, spent)
        return best


def instructions(text):
    with tempfile.TemporaryDirectory() as folder:
        source = Path(folder) / "source"
        source.write_text(text)
        tool = ["valgrind", "--tool=callgrind", f"--callgrind-out-file={folder}/counts"]
        with source.open("rb") as given:
            told = subprocess.run([*tool, PROGRAM, "check"], stdin=given, stdout=subprocess.DEVNULL, stderr=subprocess.PIPE, text=True, timeout=3600)
        return int(re.search(r"Collected : (\d+)", told.stderr).group(1)) / 1e6


def main():
    measure, unit = (instructions, "M") if "--instructions" in sys.argv[1:] else (seconds, "s")
    print("| shape | " + " | ".join(f"{size:,} bytes" for size in SIZES) + " | growth |")
    print("|---|---|---|---|---|")
    for shape in [parameters, modules, writes, arguments, calls, channels, expressions]:
        found = [measure(shape(size)) for size in SIZES]
        growth = ", ".join(f"{later / earlier:.1f}" for earlier, later in zip(found, found[1:]))
        print(f"| {shape.__name__} | " + " | ".join(f"{each:.3f} {unit}" for each in found) + f" | {growth} |")
        sys.stdout.flush()


if __name__ == "__main__":
    main()
