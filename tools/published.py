#!/usr/bin/env python3
"""Runs each published model on four threads, and has `hcsp verify` judge that trace and the one of `simulate`.

Usage: tools/published.py [WORKERS] (4), in any folder. The options are those of the model's first line (`# hcsp WORDS`). Build the
program first (`./hcsp check < examples/tank.hcsp`). A line a model tells what `verify` said of both traces; the last line is
`N models, M differ`, and the status is 1 where a trace wasn't verified whole.
"""
import subprocess
import sys
from pathlib import Path

HOME = Path(__file__).resolve().parent.parent
PROGRAM = HOME / "crates/hc_main/out/hc_main"
MOST_SECONDS = 120


def told(words, text):
    """What stands on output; each call must end by itself."""
    call = subprocess.run([PROGRAM, *words], input=text, capture_output=True, text=True, timeout=MOST_SECONDS)
    return call.stdout


def main():
    workers = sys.argv[1] if len(sys.argv) > 1 else "4"
    models = sorted((HOME / "examples/published").glob("*.hcsp"))
    differ = 0
    for model in models:
        source = model.read_text()
        options = source.splitlines()[0].split(" ")[3:]
        for words in (["simulate"], ["run", "--workers", workers]):
            trace = told([*words, *options], source)
            verdict = told(["verify", *options], source + trace)
            between = len(trace.splitlines()) - 2  # without the header and the end line
            whole = verdict.startswith(f"verified lines {between} steps ")
            differ += not whole
            print(f"{model.stem}: {' '.join(words)}: {verdict.strip()}")
    print(f"{len(models)} models, {differ} differ")
    sys.exit(differ != 0)


if __name__ == "__main__":
    main()
