#!/usr/bin/env python3
"""Writes a made source: pairs of processes, as the README of `hc_make` says them, with the rates that a seed draws.

Usage: tools/made.py PAIRS SEED [--row]. With --row it is written as a row of `hc_suite_front`.
       tools/made.py --check PROGRAM. Compares with what `hc_make` makes, through the program of `hc_suite_front`: all numbers
       of pairs from 1 to 32 with the seeds 0 to 9. The status is 1 where one differs.
Written from the text alone: it shares nothing with `hc_make`, whose rows it gives.
"""
import subprocess
import sys

RATES = [1, 2, 3, 4, 6, 8]
MULTIPLIER = 6364136223846793005
WORD = 2**64 - 1


def words(seed, stream):
    """The 32-bit words of the generator PCG XSH RR 64/32 (O'Neill 2014), from a state and a stream."""
    increment = (stream << 1 | 1) & WORD
    state = (seed + increment) * MULTIPLIER + increment & WORD
    while True:
        mixed = ((state >> 18 ^ state) >> 27) & 0xFFFFFFFF
        turn = state >> 59
        yield (mixed >> turn | mixed << (-turn & 31)) & 0xFFFFFFFF
        state = state * MULTIPLIER + increment & WORD


def made(pairs, seed):
    drawn = words(seed, 1)
    processes = []
    for i in range(pairs):
        rate = RATES[next(drawn) % 6]
        processes.append(f"A{i} = (k := 0; (x := 0; <x_dot = {rate} & x < 24>; c{i}!x; k := k + 1){{k < 1000}}**)")
        processes.append(f"B{i} = (j := 0; (c{i}?y; s := s + y; j := j + 1){{j < 1000}}**; log(s))")
    return "system\n" + " ||\n".join(processes) + "\nendsystem\n"


def row(pairs, seed):
    return f"made | {pairs} {seed} ~ " + made(pairs, seed).replace("\n", "\\n") + "\n"


def check(program):
    cases = [(pairs, seed) for pairs in range(1, 33) for seed in range(10)]
    rows = "".join(row(pairs, seed) for pairs, seed in cases)
    answers = subprocess.run([program], input=rows, capture_output=True, text=True, check=True).stdout.splitlines()
    differ = [case for case, answer in zip(cases, answers, strict=True) if answer != "as given"]
    print(f"{len(cases)} made sources, {len(differ)} differ", *differ)
    return 1 if differ else 0


def main():
    if sys.argv[1] == "--check":
        sys.exit(check(sys.argv[2]))
    pairs, seed = int(sys.argv[1]), int(sys.argv[2])
    sys.stdout.write(row(pairs, seed) if "--row" in sys.argv else made(pairs, seed))


if __name__ == "__main__":
    main()
