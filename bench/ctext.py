#!/usr/bin/env python3
"""How long large texts of the subset of C take to be read, and how much memory.

Usage: bench/ctext.py PROGRAM, the built program of hc_suite_c, which reads a unit behind the prelude from a row. Prints a table: for each shape the
seconds of processor and the memory at about 35 million bytes, the largest text that a program of the source language makes, and at the limit of
67,108,864 bytes; and that one byte more isn't read.
"""
import os
import subprocess
import sys
import tempfile

PRELUDE = 3_155
SIZES = [35_000_000, 67_108_864]
CHANNELS = 'const char *const chan_name[1] = { "" }; '
PROCESSES = 'const char *const proc_name[1] = { "P" }; '
END = " static void *(*const hc_threads[1])(void *) = { t0 }; int main(void) { return hc_main(1, hc_threads); }"


def filled(size, before, part, behind):
    """As many parts as fit between these two, each made from its number, and blanks up to the size."""
    parts, room, number = [], size - PRELUDE - len(before) - len(behind), 0
    while True:
        text = part(number)
        if len(text) > room:
            return before + "".join(parts) + " " * room + behind
        parts.append(text)
        room -= len(text)
        number += 1


def in_thread(size, locals_, part):
    return filled(size, CHANNELS + PROCESSES + "static void *t0(void *v_u) { " + locals_, part, " return 0; }" + END)


def assignments(size):
    """Short assignments, so that there are as many statements as may be."""
    return in_thread(size, "int v_a = 0;", lambda n: "v_a=1;")


def sums(size):
    """Sums of 100 locals, so that there are as many nodes as may be."""
    return in_thread(size, "int v_a = 0;", lambda n: "v_a=v_a" + "+v_a" * 99 + ";")


def locals_of_64(size):
    """The last of 64 locals with long names, which are compared one after the other."""
    names = [f"v_{'x' * 40}{n}" for n in range(64)]
    return in_thread(size, "".join(f"int {name}=0;" for name in names), lambda n: f"{names[-1]}={names[-1]};")


def calls(size):
    """Calls of the last of 200 functions."""
    functions = "".join(f"static void f_{n}(void) {{ }} " for n in range(200))
    before = CHANNELS + PROCESSES + functions + "static void *t0(void *v_u) { "
    return filled(size, before, lambda n: "f_199();", " return 0; }" + END)


def cases(size):
    """One switch with as many cases as fit."""
    before = CHANNELS + PROCESSES + "static void *t0(void *v_u) { switch (1) { "
    return filled(size, before, lambda n: f"case {n}:{{}}break;", " default: { } break; } return 0; }" + END)


def nested(size):
    """Loops in one another, as deep as may be."""
    return in_thread(size, "int v_a = 0;", lambda n: "while(1){" * 62 + "}" * 62)


def measured(program, unit):
    with tempfile.TemporaryFile() as row:
        row.write(b"read | " + unit.encode() + b"\n")
        row.seek(0)
        process = subprocess.Popen([program], stdin=row, stdout=subprocess.PIPE)
        answer = process.stdout.read().decode().strip()
        _, status, used = os.wait4(process.pid, 0)
        return answer, used.ru_utime + used.ru_stime, used.ru_maxrss / 1000


def main():
    program = sys.argv[1]
    print("| shape | " + " | ".join(f"{size:,} bytes" for size in SIZES) + " |")
    print("|---|---|---|")
    for shape in [assignments, sums, locals_of_64, calls, cases, nested]:
        cells = []
        for size in SIZES:
            answer, seconds, memory = measured(program, shape(size))
            assert answer == "program", (shape.__name__, size, answer)
            cells.append(f"{seconds:.1f} s, {memory:,.0f} MB")
        print(f"| {shape.__name__} | " + " | ".join(cells) + " |")
        sys.stdout.flush()
    answer, _, _ = measured(program, assignments(SIZES[-1] + 1))
    assert answer == "too long", answer
    print("\nOne byte more: " + answer)


if __name__ == "__main__":
    main()
